{ The instance's class decides about the methods, not the type of the variable it comes from }
type
  IA = interface procedure S; end;
  TA = class(TInterfacedObject, IA) procedure S; end;
  TB = class(TA, IA) procedure S; end;
procedure TA.S; begin WriteLn('A.S') end;
procedure TB.S; begin WriteLn('B.S') end;
var x: IA; a: TA;
begin
  a := TB.Create;
  x := a;
  x.S
end.
