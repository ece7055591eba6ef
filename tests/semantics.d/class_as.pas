{ as and casts that succeed, also of nil }
type
  TA = class n: Integer; end;
  TB = class(TA) procedure P; end;
procedure TB.P; begin WriteLn('P', n) end;
var a, z: TA; b: TB;
begin
  a := TB.Create;
  (a as TB).n := 4;
  (a as TB).P;
  TB(a).P;
  b := a as TB;
  WriteLn(b = a, (z as TB) = nil, TB(z) = nil);
  TObject(a).Free
end.
