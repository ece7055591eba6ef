{ Rows of a matrix are arrays: they are assigned, swapped and passed as wholes. }
program ArraysOfArrays;
type
  Row = array [1..3] of Integer;
  Matrix = array [1..3] of Row;
var
  m, n: Matrix;
  r: Row;
  x, y: Integer;

procedure Swap(var a, b: Row);
var
  c: Row;
begin
  c := a; a := b; b := c;
end;

function Sum(r: Row): Integer;
var
  k: Integer;
begin
  Result := 0;
  for k := 1 to 3 do
  begin
    Result := Result + r[k];
    r[k] := 0;
  end;
end;

procedure Show(const m: Matrix);
var
  y, x: Integer;
begin
  for y := 1 to 3 do
  begin
    for x := 1 to 3 do Write(m[y, x]:4);
    WriteLn(Sum(m[y]):6);
  end;
end;

begin
  for y := 1 to 3 do
    for x := 1 to 3 do m[y][x] := 10 * y + x;
  n := m;
  Swap(m[1], m[3]);
  r := m[2];
  m[2] := n[1];
  n[1] := r;
  r[1] := 99;
  m[3, 3] := r[1];
  Show(m);
  Show(n);
  m[1] := m[1];
  n := m;
  WriteLn(Sum(n[1]), ' ', n[1, 1]);
end.
