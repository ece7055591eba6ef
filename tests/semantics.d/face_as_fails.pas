{ as to an interface that the instance's class has not }
type
  IA = interface procedure A; end;
var u: IUnknown; n: IA;
begin
  u := n as IUnknown;
  WriteLn(u = nil);
  u := TInterfacedObject.Create;
  WriteLn(u is IA);
  n := u as IA;
  WriteLn('never')
end.
