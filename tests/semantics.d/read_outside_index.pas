{ The value is read before its place is looked at }
{ input: b'5 6' }
var a: array of Integer; n: Integer;
begin
  SetLength(a, 1);
  n := 3;
  Read(a[0]);
  WriteLn(a[0], Eof);
  Read(a[n]);
  WriteLn('never')
end.
