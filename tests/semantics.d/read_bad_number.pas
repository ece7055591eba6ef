{ A text that is no number ends the program }
{ input: b'12 12x\n' }
var n: Integer;
begin
  Read(n);
  WriteLn(n);
  Read(n);
  WriteLn('never')
end.
