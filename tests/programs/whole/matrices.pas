{ Powers of a matrix, its determinant and a product of two that are not square. }
program Matrices;
type
  Square = array [1..3, 1..3] of Integer;
  Wide = array [1..2, 1..3] of Integer;
const
  One: Square = ((1, 0, 0), (0, 1, 0), (0, 0, 1));
  Given: Square = ((2, -1, 0), (1, 3, 4), (0, 5, -2));
  Left: Wide = ((1, 2, 3), (4, 5, 6));

function Product(const a, b: Square): Square;
var
  i, j, k: Integer;
begin
  for i := 1 to 3 do
    for j := 1 to 3 do
    begin
      Result[i, j] := 0;
      for k := 1 to 3 do Result[i, j] := Result[i, j] + a[i, k] * b[k, j];
    end;
end;

function Power(const a: Square; n: Integer): Square;
begin
  if n = 0 then Power := One
  else if Odd(n) then Power := Product(a, Power(a, n - 1))
  else Power := Power(Product(a, a), n div 2);
end;

function Determinant(a: Square): Integer;
begin
  Determinant := a[1, 1] * (a[2, 2] * a[3, 3] - a[2, 3] * a[3, 2]) - a[1, 2] * (a[2, 1] * a[3, 3] - a[2, 3] * a[3, 1])
    + a[1, 3] * (a[2, 1] * a[3, 2] - a[2, 2] * a[3, 1]);
end;

procedure Show(const a: Square);
var
  i, j: Integer;
begin
  for i := 1 to 3 do
  begin
    for j := 1 to 3 do Write(a[i, j]:12);
    WriteLn;
  end;
end;

var
  i, j, k, Sum: Integer;
begin
  Show(Power(Given, 5));
  Show(Power(Given, 20));
  WriteLn(Determinant(Given), ' ', Determinant(Power(Given, 3)));
  for i := 1 to 2 do
    for j := 1 to 3 do
    begin
      Sum := 0;
      for k := 1 to 3 do Sum := Sum + Left[i, k] * Given[k, j];
      Write(Sum, ' ');
    end;
  WriteLn;
end.
