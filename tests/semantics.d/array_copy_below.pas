{ A first place below 0 counts as 0 }
type T = array of Integer;
var a, b: T;
begin
  SetLength(a, 2);
  a[0] := 5;
  b := Copy(a, -1, 1);
  WriteLn(Length(b), b[0])
end.
