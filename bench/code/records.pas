{ Records in a table, with sets of numbers: which of them go together, and copies of whole ones. }
program Records;
const
  Last = 60;
type
  Marks = set of 0..31;
  Person = record
    Number: Word;
    Group: Byte;
    Has, Wants: Marks;
    Score: Integer;
  end;
var
  People: array [1..Last] of Person;
  Seed: Integer;

function Next(Limit: Integer): Integer;
begin
  Seed := (Seed * 1309 + 13849) and 65535;
  Next := Seed mod Limit;
end;

procedure Fill(var p: Person; Number: Integer);
var
  k, First: Integer;
begin
  p.Number := Number;
  p.Group := Next(7);
  p.Has := [];
  First := Next(8);
  p.Wants := [First..Next(8) + 8];
  p.Score := 0;
  for k := 1 to 9 do Include(p.Has, Next(32));
end;

function Count(const s: Marks): Integer;
var
  k: Integer;
begin
  Result := 0;
  for k := 0 to 31 do
    if k in s then Inc(Result);
end;

procedure Sort;
var
  i, j: Integer;
  p: Person;
begin
  for i := 2 to Last do
  begin
    p := People[i];
    j := i;
    while (j > 1) and (People[j - 1].Score < p.Score) do
    begin
      People[j] := People[j - 1];
      Dec(j);
    end;
    People[j] := p;
  end;
end;

var
  i, j, Pairs: Integer;
begin
  Seed := 42;
  Pairs := 0;
  for i := 1 to Last do Fill(People[i], i);
  for i := 1 to Last do
    for j := 1 to Last do
      if (i <> j) and (People[i].Group <> People[j].Group) and (People[i].Has * People[j].Wants <> []) then
      begin
        Inc(Pairs);
        People[i].Score := People[i].Score + Count(People[i].Has * People[j].Wants);
        if People[j].Has <= People[i].Has + People[i].Wants then Dec(People[i].Score);
      end;
  Sort;
  WriteLn(Pairs, ' pairs');
  for i := 1 to 10 do WriteLn(People[i].Number:4, People[i].Group:3, People[i].Score:6, Count(People[i].Has):4);
end.
