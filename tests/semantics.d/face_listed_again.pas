{ A descendant that lists the interface again has its own static methods there }
type
  IA = interface procedure S; end;
  TA = class(TInterfacedObject, IA) procedure S; end;
  TB = class(TA, IA) procedure S; end;
procedure TA.S; begin WriteLn('A.S') end;
procedure TB.S; begin WriteLn('B.S') end;
var x: IA;
begin
  x := TA.Create;
  x.S;
  x := TB.Create;
  x.S
end.
