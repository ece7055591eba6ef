{ The game of life on a board whose edges meet: a glider on its way. }
program Life;
const
  Size = 10;
type
  Place = 0..Size - 1;
  Board = array [Place, Place] of Boolean;
const
  Glider: array [1..5, 1..2] of Place = ((1, 2), (2, 3), (3, 1), (3, 2), (3, 3));

function Neighbours(const B: Board; Y, X: Place): Integer;
var
  Up, Along: Integer;
begin
  Result := 0;
  for Up := -1 to 1 do
    for Along := -1 to 1 do
      if ((Up <> 0) or (Along <> 0)) and B[(Y + Up + Size) mod Size, (X + Along + Size) mod Size] then
        Inc(Result);
end;

function Next(const B: Board): Board;
var
  X, Y: Place;
begin
  for Y := 0 to Size - 1 do
    for X := 0 to Size - 1 do
      case Neighbours(B, Y, X) of
        2: Result[Y, X] := B[Y, X];
        3: Result[Y, X] := True;
      else
        Result[Y, X] := False;
      end;
end;

procedure Show(const B: Board);
var
  X, Y: Place;
begin
  for Y := 0 to Size - 1 do
  begin
    for X := 0 to Size - 1 do
      if B[Y, X] then Write('#') else Write('.');
    WriteLn;
  end;
  WriteLn;
end;

var
  B: Board;
  K: Integer;
begin
  for K := 1 to 5 do B[Glider[K, 1], Glider[K, 2]] := True;
  for K := 0 to 20 do
  begin
    if K mod 10 = 0 then Show(B);
    B := Next(B);
  end;
end.
