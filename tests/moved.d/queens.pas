{ Counts the ways to place eight queens, and shows the first one. }
program Queens;
type
  Place = 1..8;
  Board = array [Place] of Place;
  Taken = record
    Rows: set of Place;
    Up, Down: array [-7..16] of Boolean;
  end;
var
  Placed: Board;
  Lines: Taken;
  Found, Tried: Integer;

procedure Settle(X: Integer); forward;

procedure Show(const B: Board);
var
  X, Y: Place;
begin
  for Y := 1 to 8 do
  begin
    for X := 1 to 8 do
      if B[X] = Y then Write('Q') else Write('.');
    WriteLn;
  end;
end;

function IsFree(const L: Taken; X, Y: Integer): Boolean;
begin
  Inc(Tried);
  IsFree := not (Y in L.Rows) and not L.Up[X + Y] and not L.Down[X - Y];
end;

procedure Mark(var L: Taken; X, Y: Integer; B: Boolean);
begin
  L.Up[X + Y] := B;
  L.Down[X - Y] := B;
  if B then Include(L.Rows, Y) else Exclude(L.Rows, Y);
end;

procedure Settle(X: Integer);
var
  Y: Integer;
begin
  if X > 8 then
  begin
    if Found = 0 then
      Show(Placed);
    Inc(Found);
    Exit;
  end;
  Y := 0;
  repeat
    Inc(Y);
    if not IsFree(Lines, X, Y) then
      Continue;
    Placed[X] := Y;
    Mark(Lines, X, Y, True);
    try
      if Y < 0 then
        Break;
      Settle(X + 1);
    finally
      Mark(Lines, X, Y, False);
    end;
  until Y >= 8;
end;

begin
  Settle(1);
  WriteLn(Found, ' found, ', Tried, ' tried');
end.
