{ A carriage return is a byte like others in texts, and is passed over before numbers }
{ input: b'ab\r\n 7\r\n' }
var s: String; n: Integer;
begin
  ReadLn(s);
  WriteLn(Length(s), Ord(s[Length(s)]));
  ReadLn(n);
  WriteLn(n, Eof)
end.
