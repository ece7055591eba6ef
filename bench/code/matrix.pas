{ The fourth power of a matrix of 40 rows, in remainders. }
program Matrix;
const
  Size = 40;
type
  Rows = array [1..Size, 1..Size] of Integer;
var
  Given, Square, Fourth: Rows;

procedure Multiply(const a, b: Rows; var c: Rows);
var
  i, j, k, Sum: Integer;
begin
  for i := 1 to Size do
    for j := 1 to Size do
    begin
      Sum := 0;
      for k := 1 to Size do Sum := Sum + a[i, k] * b[k, j];
      c[i, j] := Sum mod 10007;
    end;
end;

var
  i, j, Trace: Integer;
begin
  for i := 1 to Size do
    for j := 1 to Size do Given[i, j] := (i * 17 + j * 31) mod 101 - 50;
  Multiply(Given, Given, Square);
  Multiply(Square, Square, Fourth);
  Trace := 0;
  for i := 1 to Size do Trace := Trace + Fourth[i, i];
  WriteLn(Trace, ' ', Square[1, Size], ' ', Fourth[Size, 1]);
end.
