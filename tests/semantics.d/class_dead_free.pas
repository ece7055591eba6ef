{ Free of a dead instance }
type TA = class end;
var a: TA;
begin
  a := TA.Create;
  a.Free;
  WriteLn('once');
  a.Free;
  WriteLn('never')
end.
