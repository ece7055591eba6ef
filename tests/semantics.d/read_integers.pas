{ Numbers with blanks, tabs and empty lines between them }
{ input: b'12 -7\t+3\n\n  $1F\n' }
var a, b, c, d: Integer;
begin
  Read(a, b);
  ReadLn(c);
  Read(d);
  WriteLn(a, ' ', b, ' ', c, ' ', d)
end.
