{ Sorts 10,000 numbers by a heap. }
program Sort;
const
  Last = 10000;
var
  Items: array [1..Last] of Integer;
  Seed: Integer;

function Random: Integer;
begin
  Seed := Seed * 1103515245 + 12345;
  Random := Seed shr 8;
end;

procedure Sink(Root, Count: Integer);
var
  Item, Child: Integer;
begin
  Item := Items[Root];
  while 2 * Root <= Count do
  begin
    Child := 2 * Root;
    if (Child < Count) and (Items[Child] < Items[Child + 1]) then Inc(Child);
    if Items[Child] <= Item then Break;
    Items[Root] := Items[Child];
    Root := Child;
  end;
  Items[Root] := Item;
end;

var
  k, Item, Sum: Integer;
begin
  Seed := 1;
  for k := 1 to Last do Items[k] := Random;
  for k := Last div 2 downto 1 do Sink(k, Last);
  for k := Last downto 2 do
  begin
    Item := Items[k];
    Items[k] := Items[1];
    Items[1] := Item;
    Sink(1, k - 1);
  end;
  Sum := 0;
  for k := 2 to Last do
  begin
    if Items[k - 1] > Items[k] then WriteLn('not sorted');
    Sum := Sum * 31 + Items[k];
  end;
  WriteLn(Items[1], ' ', Items[Last], ' ', Sum);
end.
