{ Chars are read one after the other, the line feed too, and then the end mark }
{ input: b'a b\n' }
var a, b, c, d, e: Char;
begin
  Read(a, b, c, d, e);
  WriteLn(a, b, c, Ord(d), ' ', Ord(e), Eof)
end.
