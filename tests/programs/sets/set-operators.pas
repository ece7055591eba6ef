{ Union, intersection and difference of sets, and what is in them. }
program SetOperators;
type
  Small = set of 0..31;
var
  a, b: Small;

procedure Show(const s: Small);
var
  k: Integer;
begin
  Write('[');
  for k := 0 to 31 do
    if k in s then Write(' ', k);
  WriteLn(' ]');
end;

begin
  a := [0, 3..6, 31];
  b := [5..8, 0];
  Show(a + b);
  Show(a * b);
  Show(a - b);
  Show(b - a);
  Show((a + b) - (a * b));
  Show(a - a);
  Show(a + []);
  Show([0..31] - a);
  Show(a + b * [7] - [0]);
  a := a + [30];
  a := a - [31, 1];
  Show(a);
end.
