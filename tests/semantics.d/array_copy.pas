{ Copy of an array: whole, a piece, past the end, below 0, of nothing }
type T = array of Integer;
var a, b: T; i: Integer;
procedure P(const x: array of Integer);
var k: Integer;
begin
  for k := 0 to High(x) do Write(x[k], ' ');
  WriteLn('n', Length(x))
end;
begin
  SetLength(a, 4);
  for i := 0 to 3 do a[i] := i + 1;
  b := Copy(a); b[0] := 9; P(a); P(b);
  b := Copy(a, 1, 2); P(b);
  b := Copy(a, 2, 99); P(b);
  b := Copy(a, 4, 1); P(b);
  WriteLn(Copy(a, 1, 0) = nil)
end.
