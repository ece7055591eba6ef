{ A static method of nil, though its body uses no field }
type TA = class procedure P; end;
procedure TA.P; begin WriteLn('never') end;
var a: TA;
begin
  WriteLn('before');
  a.P
end.
