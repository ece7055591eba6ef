{ An interface with an ancestor: its value goes where the ancestor is wanted }
type
  IA = interface procedure A; end;
  IB = interface(IA) procedure B; end;
  TC = class(TInterfacedObject, IB) procedure A; procedure B; end;
procedure TC.A; begin WriteLn('A') end;
procedure TC.B; begin WriteLn('B') end;
procedure P(const x: IA); begin x.A end;
var x: IA; y: IB; u: IUnknown;
begin
  y := TC.Create;
  y.A;
  y.B;
  x := y;
  x.A;
  P(y);
  u := y;
  WriteLn(x = y, u = nil)
end.
