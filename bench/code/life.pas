{ Forty generations of cells on a grid whose edges meet, each cell a byte. }
program Life;
const
  Height = 40;
  Width = 48;
  Generations = 40;
type
  Grid = array [0..Height - 1, 0..Width - 1] of Byte;
var
  Now, Next: Grid;

procedure Fill(var g: Grid);
var
  y, x, n: Integer;
begin
  n := 7;
  for y := 0 to Height - 1 do
    for x := 0 to Width - 1 do
    begin
      n := (n * 1309 + 13849) and 65535;
      if n mod 3 = 0 then g[y, x] := 1 else g[y, x] := 0;
    end;
end;

function Around(var g: Grid; y, x: Integer): Integer;
var
  Above, Below, Left, Right: Integer;
begin
  if y = 0 then Above := Height - 1 else Above := y - 1;
  if y = Height - 1 then Below := 0 else Below := y + 1;
  if x = 0 then Left := Width - 1 else Left := x - 1;
  if x = Width - 1 then Right := 0 else Right := x + 1;
  Around := g[Above, Left] + g[Above, x] + g[Above, Right] + g[y, Left] + g[y, Right] + g[Below, Left] + g[Below, x] + g[Below, Right];
end;

procedure Step(var Old, New: Grid);
var
  y, x, n: Integer;
begin
  for y := 0 to Height - 1 do
    for x := 0 to Width - 1 do
    begin
      n := Around(Old, y, x);
      if (n = 3) or ((n = 2) and (Old[y, x] = 1)) then New[y, x] := 1 else New[y, x] := 0;
    end;
end;

function Alive(const g: Grid): Integer;
var
  y, x, n: Integer;
begin
  n := 0;
  for y := 0 to Height - 1 do
    for x := 0 to Width - 1 do n := n + g[y, x];
  Alive := n;
end;

var
  k: Integer;
begin
  Fill(Now);
  for k := 1 to Generations div 2 do
  begin
    Step(Now, Next);
    Step(Next, Now);
    WriteLn(2 * k:3, Alive(Now):6);
  end;
end.
