{ Destroy of nil is no Free }
type TA = class end;
var a: TA;
begin
  a.Free;
  WriteLn('before');
  a.Destroy;
  WriteLn('never')
end.
