{ A value parameter may be changed without any effect on its argument }
var s: String;
procedure P(a: String);
begin
  a := a + '!';
  WriteLn(a)
end;
begin
  s := 'hi';
  P(s);
  P('lit');
  P(s + 'x');
  WriteLn(s)
end.
