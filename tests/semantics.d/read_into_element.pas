{ Read goes item by item: the first number is the index of the second place }
{ input: b'1 7 ab\ncd' }
var a: array[0..2] of Integer; t: array of String; i: Integer;
begin
  Read(i, a[i]);
  SetLength(t, 2);
  ReadLn(t[0]);
  Read(t[i]);
  WriteLn(i, a[0], a[1], '[', t[0], '][', t[1], ']')
end.
