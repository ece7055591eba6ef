{ Two var parameters may stand for one variable, or for a record and its field, or for a global. }
program OneVariableTwice;
type
  Point = record
    x, y: Integer;
  end;
var
  n: Integer;
  p: Point;
  a: array [1..3] of Integer;

procedure Swap(var a, b: Integer);
begin
  a := a xor b;
  b := a xor b;
  a := a xor b;
end;

procedure AddTwice(var a: Integer; b: Integer; var c: Integer);
begin
  a := a + b;
  c := c + a;
  n := n + 1;
  WriteLn(a, ' ', b, ' ', c, ' ', n);
end;

procedure Both(var p: Point; var x: Integer);
begin
  x := 5;
  p.y := p.x + 1;
  p.x := 7;
  WriteLn(x, ' ', p.x, ' ', p.y);
end;

begin
  a[1] := 10; a[2] := 20; a[3] := 30;
  Swap(a[1], a[3]);
  Swap(a[2], a[2]);
  WriteLn(a[1], ' ', a[2], ' ', a[3]);
  n := 1;
  AddTwice(n, n, n);
  AddTwice(a[1], n, n);
  Both(p, p.x);
  Both(p, p.y);
end.
