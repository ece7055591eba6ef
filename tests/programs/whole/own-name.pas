{ The program's name stands for nothing in its declarations, so one of these may have it. }
program Sort;
const
  Last = 5;
var
  Items: array [1..Last] of Integer = (4, -1, 7, 0, 4);

procedure Sort;
var
  i, j, Item: Integer;
begin
  for i := 2 to Last do
  begin
    Item := Items[i];
    j := i - 1;
    while (j >= 1) and (Items[j] > Item) do
    begin
      Items[j + 1] := Items[j];
      Dec(j);
    end;
    Items[j + 1] := Item;
  end;
end;

var
  i: Integer;
begin
  Sort;
  for i := 1 to Last do Write(Items[i]:3);
  WriteLn;
end.
