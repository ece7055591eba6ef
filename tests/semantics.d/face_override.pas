{ A call through an interface reaches the descendant's override, not its static method }
type
  IA = interface procedure V; procedure S; end;
  TA = class(TInterfacedObject, IA) procedure V; virtual; procedure S; end;
  TB = class(TA) procedure V; override; procedure S; end;
procedure TA.V; begin WriteLn('A.V') end;
procedure TA.S; begin WriteLn('A.S') end;
procedure TB.V; begin WriteLn('B.V') end;
procedure TB.S; begin WriteLn('B.S') end;
var x: IA;
begin
  x := TB.Create;
  x.V;
  x.S
end.
