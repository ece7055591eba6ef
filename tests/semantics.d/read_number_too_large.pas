{ A number beyond 32 bits ends the program }
{ input: b'2147483647 2147483648' }
var n: Integer;
begin
  Read(n);
  WriteLn(n);
  Read(n);
  WriteLn('never')
end.
