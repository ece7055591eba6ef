{ Interfaces are equal where their instance is the same }
type
  IA = interface procedure P; end;
  TA = class(TInterfacedObject, IA) procedure P; end;
procedure TA.P; begin WriteLn('P') end;
var x, y, z: IA;
begin
  x := TA.Create;
  y := x;
  z := TA.Create;
  WriteLn(x = y, x = z, x <> z, x = nil, Assigned(z));
  z := nil;
  WriteLn(z = nil, Assigned(z))
end.
