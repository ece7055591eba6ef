{ A parameter and a local hide a field, Self shows it }
type TA = class n, m: Integer; procedure P(n: Integer); end;
procedure TA.P(n: Integer);
var m: Integer;
begin
  m := n + 1;
  Self.n := n * 2;
  Self.m := Self.n + m;
  WriteLn(n, m, Self.n, Self.m)
end;
var a: TA;
begin
  a := TA.Create;
  a.P(2);
  WriteLn(a.n, a.m);
  a.Free
end.
