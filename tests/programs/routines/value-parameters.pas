{ A value parameter is a copy: what the routine does to it stays within. }
program ValueParameters;
type
  Point = record
    x, y: Integer;
  end;
  Row = array [1..3] of Byte;
var
  n: Integer;
  p: Point;
  r: Row;
  s: set of 0..31;

procedure Change(n: Integer; p: Point; r: Row; c: Char; f: Boolean);
begin
  n := n + 1;
  p.x := p.x * 2;
  r[2] := r[1] + r[3];
  c := Succ(c);
  f := not f;
  WriteLn(n, ' ', p.x, ' ', p.y, ' ', r[1], r[2], r[3], ' ', c, ' ', f);
end;

begin
  n := 5;
  p.x := 10; p.y := 20;
  r[1] := 1; r[2] := 2; r[3] := 3;
  Change(n, p, r, 'k', n > 3);
  Change(n + 1, p, r, Chr(n + 60), False);
  s := [n];
  WriteLn(n, ' ', p.x, ' ', p.y, ' ', r[1], r[2], r[3], ' ', 5 in s);
end.
