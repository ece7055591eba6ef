{ as from one interface to another, and from a class }
type
  IA = interface procedure A; end;
  IB = interface procedure B; end;
  TC = class(TInterfacedObject, IA, IB) procedure A; procedure B; end;
procedure TC.A; begin WriteLn('A') end;
procedure TC.B; begin WriteLn('B') end;
var x: IA; u: IUnknown;
begin
  u := TC.Create;
  x := u as IA;
  x.A;
  (x as IB).B;
  WriteLn(u is IB, (u as IB) <> nil)
end.
