{ Lines of no byte and of one byte }
{ input: b'\nx\n' }
var s: String;
begin
  s := 'old';
  ReadLn(s);
  WriteLn(Length(s));
  ReadLn(s);
  WriteLn(Length(s), s)
end.
