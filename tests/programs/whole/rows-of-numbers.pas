{ The triangle of Pascal, and rows of digits of squares, in columns. }
program RowsOfNumbers;
var
  Row: array [0..12] of Integer;
  n, k: Integer;
begin
  Row[0] := 1;
  for n := 0 to 12 do
  begin
    Write('':(12 - n) * 2);
    for k := 0 to n do Write(Row[k]:4);
    WriteLn;
    for k := n + 1 downto 1 do
      if k <= 12 then Row[k] := Row[k] + Row[k - 1];
  end;
  for n := 1 to 9 do WriteLn(n:1, n * n:n + 2, n * n * n:n * 2);
end.
