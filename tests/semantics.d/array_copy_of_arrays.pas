{ A copy of an array of arrays has the same rows }
type T = array of Integer;
  M = array of T;
var a, b: M;
begin
  SetLength(a, 2);
  SetLength(a[1], 1);
  b := Copy(a);
  b[1][0] := 4;
  b[0] := b[1];
  WriteLn(a[1][0], Length(a[0]), a = b, a[1] = b[0])
end.
