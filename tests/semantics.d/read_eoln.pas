{ Eoln is True before a line feed and at the end }
{ input: b'ab\nc' }
var c: Char;
begin
  while not Eof do begin
    while not Eoln do begin
      Read(c);
      Write(c)
    end;
    WriteLn('|', Eof);
    ReadLn
  end;
  WriteLn(Eoln, Eof)
end.
