{ A table of towns with their people, by size: records, a sort and columns. }
program Table;
type
  Name = array [1..8] of Char;
  Town = record
    Called: Name;
    People: Integer;
    Area: Word;
    IsPort: Boolean;
  end;
  Towns = array [1..6] of Town;
const
  Given: Towns = (
    (Called: ('A', 'l', 'm', 'e', 'r', 'i', 'a', ' '); People: 200753; Area: 296; IsPort: True),
    (Called: ('B', 'e', 'r', 'g', 'e', 'n', ' ', ' '); People: 289330; Area: 465; IsPort: True),
    (Called: ('C', 'o', 'r', 'k', ' ', ' ', ' ', ' '); People: 224004; Area: 187; IsPort: True),
    (Called: ('D', 'r', 'e', 's', 'd', 'e', 'n', ' '); People: 563311; Area: 328; IsPort: False),
    (Called: ('E', 's', 's', 'e', 'n', ' ', ' ', ' '); People: 579432; Area: 210; IsPort: False),
    (Called: ('F', 'a', 'r', 'o', ' ', ' ', ' ', ' '); People: 67622; Area: 202; IsPort: True));

procedure Sort(var T: Towns);
var
  K, N: Integer;
  Kept: Town;
begin
  for N := Low(T) + 1 to High(T) do
  begin
    Kept := T[N];
    K := N;
    while (K > Low(T)) and (T[K - 1].People < Kept.People) do
    begin
      T[K] := T[K - 1];
      Dec(K);
    end;
    T[K] := Kept;
  end;
end;

procedure WriteName(const N: Name);
var
  K: Integer;
begin
  for K := Low(N) to High(N) do Write(N[K]);
end;

var
  T: Towns;
  K, People, Area: Integer;
begin
  T := Given;
  Sort(T);
  People := 0;
  Area := 0;
  WriteLn('Town', 'People':12, 'Area':8, 'Density':10, 'Port':7);
  for K := Low(T) to High(T) do
  begin
    WriteName(T[K].Called);
    WriteLn(T[K].People:8, T[K].Area:8, T[K].People div T[K].Area:10, T[K].IsPort:7);
    People := People + T[K].People;
    Area := Area + T[K].Area;
  end;
  WriteLn('All', People:13, Area:8, People div Area:10);
end.
