{ A line of 65 bytes without a line feed, into a variable that holds a text already }
{ input: b'01234567890123456789012345678901234567890123456789012345678901234' }
var s: String;
begin
  s := 'ab';
  s := s + 'c';
  Read(s);
  WriteLn(Length(s), s[1], s[65], Eof)
end.
