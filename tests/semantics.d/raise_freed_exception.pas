{ An exception that its handler freed is raised again. }
type E = class end;
var x: E;
begin try x := E.Create; raise x; except on X: E do begin x.Free; WriteLn('f'); raise; end; end; end.
