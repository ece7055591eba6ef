{ Chars in sums: Char with Char, Char with text, text with Char }
var a, b: Char; s: String;
begin
  a := 'x';
  b := 'y';
  s := a + b;
  WriteLn(s);
  s := a + s + b;
  WriteLn(s, Length(s));
  s := a;
  WriteLn(s, s = a, s < b)
end.
