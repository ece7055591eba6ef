{ Which of 32 know one another, as sets: groups of three and of four who all do, and the greatest circle of friends of two. }
program Groups;
type
  Person = 0..31;
  People = set of Person;
var
  Knows: array [Person] of People;
  Seed: Integer;

function Random(Limit: Integer): Integer;
begin
  Seed := (Seed * 1309 + 13849) and 65535;
  Random := Seed mod Limit;
end;

procedure Meet;
var
  a, b: Person;
begin
  for a := 0 to 31 do Knows[a] := [];
  for a := 0 to 30 do
    for b := a + 1 to 31 do
      if Random(5) < 2 then
      begin
        Include(Knows[a], b);
        Include(Knows[b], a);
      end;
end;

function Size(s: People): Integer;
var
  k: Person;
  n: Integer;
begin
  n := 0;
  for k := 0 to 31 do
    if k in s then Inc(n);
  Size := n;
end;

var
  a, b, c, d: Integer;
  Both, All: People;
  Threes, Fours, Most: Integer;
begin
  Seed := 5;
  Meet;
  Threes := 0;
  Fours := 0;
  Most := 0;
  for a := 0 to 30 do
    for b := a + 1 to 31 do
      if b in Knows[a] then
      begin
        Both := Knows[a] * Knows[b];
        if Size(Both) > Most then Most := Size(Both);
        for c := b + 1 to 31 do
          if c in Both then
          begin
            Inc(Threes);
            All := Both * Knows[c] - [a, b, c];
            for d := c + 1 to 31 do
              if d in All then Inc(Fours);
          end;
      end;
  WriteLn(Threes, ' threes, ', Fours, ' fours, ', Most);
end.
