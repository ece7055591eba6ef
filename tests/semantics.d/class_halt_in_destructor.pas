{ Halt in a destructor: what calls it does not go on }
type TA = class destructor Destroy; override; end;
destructor TA.Destroy;
begin
  WriteLn('in');
  Halt(4)
end;
var a: TA;
begin
  a := TA.Create;
  a.Free;
  WriteLn('never')
end.
