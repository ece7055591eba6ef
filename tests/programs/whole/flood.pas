{ Fills the regions of a grid, and counts the cells of each. }
program Flood;
const
  Width = 12;
  Height = 5;
  Rows: array [1..Height, 1..Width] of Char = (
    ('.', '.', '#', '.', '.', '.', '#', '#', '.', '.', '.', '.'),
    ('.', '#', '#', '.', '#', '.', '#', '.', '.', '#', '#', '.'),
    ('#', '#', '.', '.', '#', '.', '#', '#', '#', '#', '.', '.'),
    ('.', '.', '#', '#', '#', '.', '.', '.', '#', '.', '#', '#'),
    ('.', '#', '.', '.', '.', '#', '#', '.', '#', '.', '.', '.'));
var
  Grid: array [1..Height, 1..Width] of Char;
  Sizes: array ['a'..'z'] of Integer;

function Filled(y, x: Integer; Mark: Char): Integer;
begin
  if (x < 1) or (x > Width) or (y < 1) or (y > Height) then Exit(0);
  if Grid[y, x] <> '.' then Exit(0);
  Grid[y, x] := Mark;
  Filled := 1 + Filled(y, x - 1, Mark) + Filled(y, x + 1, Mark) + Filled(y - 1, x, Mark) + Filled(y + 1, x, Mark);
end;

var
  x, y: Integer;
  Mark, c: Char;
begin
  for y := 1 to Height do
    for x := 1 to Width do Grid[y, x] := Rows[y, x];
  Mark := 'a';
  for y := 1 to Height do
    for x := 1 to Width do
      if Grid[y, x] = '.' then
      begin
        Sizes[Mark] := Filled(y, x, Mark);
        Inc(Mark);
      end;
  for y := 1 to Height do
  begin
    for x := 1 to Width do Write(Grid[y, x]);
    WriteLn;
  end;
  for c := 'a' to Pred(Mark) do Write(c, Sizes[c], ' ');
  WriteLn;
end.
