{ Include and Exclude, of what is there and of what is not, in parts of records and arrays. }
program IncludeAndExclude;
type
  Small = set of 0..31;
  Entry = record
    Before: Integer;
    Marks: Small;
    After: Integer;
  end;
var
  e: array [1..2] of Entry;
  k, Calls: Integer;

function Which: Integer;
begin
  Inc(Calls);
  Which := Calls;
end;

begin
  e[1].Before := -1; e[1].After := -1;
  for k := 0 to 31 do Include(e[1].Marks, k);
  WriteLn(e[1].Marks = [0..31], ' ', e[1].Before, ' ', e[1].After);
  for k := 0 to 31 do
    if k mod 3 <> 0 then Exclude(e[1].Marks, k);
  Exclude(e[1].Marks, 1);
  Include(e[1].Marks, 3);
  WriteLn(e[1].Marks = [0, 3, 6, 9, 12, 15, 18, 21, 24, 27, 30], ' ', e[2].Marks = []);
  Include(e[Which].Marks, 31);
  Include(e[Which].Marks, 7);
  WriteLn(Calls, ' ', 31 in e[1].Marks, ' ', 7 in e[2].Marks, ' ', e[1].After);
end.
