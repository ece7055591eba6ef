{ A line of 64 bytes }
{ input: b'0123456789012345678901234567890123456789012345678901234567890123\n' }
var s: String;
begin
  ReadLn(s);
  WriteLn(Length(s), s[1], s[64], Eof)
end.
