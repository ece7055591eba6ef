{ A constructor called on an instance runs as a method }
type TA = class n: Integer; s: String; constructor Create(x: Integer); end;
constructor TA.Create(x: Integer);
begin
  n := n + x;
  s := s + 'c'
end;
var a, b: TA;
begin
  a := TA.Create(1);
  b := a;
  a.Create(5);
  WriteLn(b.n, b.s, a = b);
  a.Free
end.
