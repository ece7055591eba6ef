{ The object under way is freed in finally; except takes it, on looks at its class and ends with 216. }
type E = class end;
var x: E;
begin
 try try x := E.Create; raise x; finally x.Free; end; except WriteLn('any') end;
 try try x := E.Create; raise x; finally x.Free; end; except on Q: E do WriteLn('no') end;
end.
