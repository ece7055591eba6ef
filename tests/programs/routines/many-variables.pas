{ More variables are in use at a time than a machine has registers, in routines that call one another. }
program ManyVariables;

function Mixed(a, b, c, d, e, f, g, h, i, j, k, l: Integer): Integer;
var
  p, q, r, s, t, u, v, w: Integer;
begin
  p := a + b;
  q := c - d;
  r := e * f;
  s := g xor h;
  t := i + j;
  u := k - l;
  v := p + q + r + s + t + u;
  w := a - l;
  if v mod 3 = 0 then p := p + w else q := q - w;
  Mixed := p + 2 * q + 3 * r + 4 * s + 5 * t + 6 * u + 7 * v + 8 * w;
end;

function Deep(n, a, b, c, d: Integer): Integer;
var
  x, y, z: Integer;
begin
  x := a + n;
  y := b * 2 - n;
  z := c xor d;
  if n = 0 then Deep := x + y + z
  else Deep := Deep(n - 1, y, z, x, a) + x - 2 * y + 3 * z + Mixed(n, a, b, c, d, x, y, z, n + a, n + b, n + c, n + d);
end;

procedure Turn(var a, b, c: Integer; n: Integer);
var
  Kept: Integer;
begin
  Kept := a + n;
  if n > 0 then Turn(b, c, a, n - 1);
  a := a + Kept - b;
  b := b xor Kept;
  c := c + n;
end;

var
  i, x, y, z: Integer;
begin
  WriteLn(Mixed(1, 2, 3, 4, 5, 6, 7, 8, 9, 10, 11, 12));
  WriteLn(Mixed(12, -11, 10, -9, 8, -7, 6, -5, 4, -3, 2, -1));
  for i := 0 to 5 do WriteLn(i, ' ', Deep(i, i + 1, i - 2, 3 * i, 4));
  x := 1;
  y := 20;
  z := 300;
  for i := 0 to 7 do
  begin
    Turn(x, y, z, i);
    WriteLn(x, ' ', y, ' ', z);
  end;
end.
