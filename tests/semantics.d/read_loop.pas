{ All lines up to the end; the last one has no line feed }
{ input: b'one\n\nthree' }
var s: String; n: Integer;
begin
  while not Eof do begin
    ReadLn(s);
    n := n + 1;
    WriteLn(n, ':', s)
  end;
  ReadLn(s);
  WriteLn(Length(s))
end.
