{ Read of a text stops before the line feed, ReadLn passes over it }
{ input: b'ab\ncd\n' }
var s, t, u: String;
begin
  Read(s);
  Read(t);
  WriteLn(s, Length(t), Eoln, Eof);
  ReadLn;
  ReadLn(u);
  WriteLn(u, Eof)
end.
