{ A variable becomes a piece of its own text, and the text of its own length }
var s: String;
begin
  s := 'abcdef';
  s := Copy(s, 2, 3);
  WriteLn(s);
  s := Copy(s, 1, 2) + s;
  WriteLn(s);
  Str(Length(s), s);
  WriteLn(s)
end.
