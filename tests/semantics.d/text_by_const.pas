{ A const parameter takes a variable, a literal, a Char and a sum }
var s: String; c: Char;
procedure P(const a: String);
begin
  WriteLn(a, Length(a))
end;
begin
  s := 'hi';
  c := 'c';
  P(s);
  P('lit');
  P(c);
  P(s + c);
  P('')
end.
