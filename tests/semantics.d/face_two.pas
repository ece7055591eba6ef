{ A class with two interfaces: both hold the one instance }
type
  IA = interface procedure A; end;
  IB = interface procedure B; procedure A; end;
  TC = class(TInterfacedObject, IA, IB) n: Integer; procedure A; procedure B; destructor Destroy; override; end;
procedure TC.A; begin n := n + 1; WriteLn('A', n) end;
procedure TC.B; begin n := n + 1; WriteLn('B', n) end;
destructor TC.Destroy; begin WriteLn('gone'); inherited Destroy end;
var c: TC; x: IA; y: IB;
begin
  c := TC.Create;
  x := c;
  y := c;
  x.A;
  y.B;
  y.A;
  x := nil;
  WriteLn(c.n);
  y := nil;
  WriteLn('end')
end.
