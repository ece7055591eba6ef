{ A line of 63 bytes }
{ input: b'012345678901234567890123456789012345678901234567890123456789012\n' }
var s: String;
begin
  ReadLn(s);
  WriteLn(Length(s), s[1], s[63], Eof)
end.
