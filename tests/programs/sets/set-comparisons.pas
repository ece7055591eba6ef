{ Sets compare as subsets and as wholes. }
program SetComparisons;
type
  Small = set of 0..31;

procedure Compare(const a, b: Small);
begin
  WriteLn(a = b:6, a <> b:6, a <= b:6, a >= b:6, not (a <= b) and not (b <= a):6);
end;

begin
  Compare([1, 2], [2, 1]);
  Compare([1, 2], [1, 2, 3]);
  Compare([1, 2, 31], [1, 2]);
  Compare([1, 2], [3]);
  Compare([], []);
  Compare([], [0]);
  Compare([0..31], [0..15, 16..31]);
  Compare([31], [0..30]);
end.
