{ ReadLn without a target passes over the rest of a line }
{ input: b'skip this\nab' }
var c: Char;
begin
  Read(c);
  Write(c);
  ReadLn;
  ReadLn(c);
  WriteLn(c, Eof)
end.
