{ not as Free Pascal: it checks indices under R alone. Each index of a place is checked in its own range. }
program IndexOfRow;
type
  Row = array [0..1] of Byte;
var
  m: array [0..3] of Row;
  r: Row;
  x, y: Integer;
begin
  for y := 0 to 3 do
    for x := 0 to 1 do m[y, x] := 10 * y + x;
  r := m[3];
  WriteLn(r[0], ' ', r[1], ' ', m[2, 1]);
  WriteLn(m[1, 2]);
end.
