{ The shortest ways from one town to all others, by the nearest town that is not done. }
program ShortestWays;
type
  Town = (Aachen, Bonn, Celle, Dresden, Essen, Fulda);
const
  Far = MaxInt div 2;
  Roads: array [Town, Town] of Word = (
    (0, 7, 9, 0, 0, 14), (7, 0, 10, 15, 0, 0), (9, 10, 0, 11, 0, 2),
    (0, 15, 11, 0, 6, 0), (0, 0, 0, 6, 0, 9), (14, 0, 2, 0, 9, 0));
var
  Distance: array [Town] of Integer;
  Before: array [Town] of Town;
  Done: set of Town;
  t, Next: Town;
  k: Integer;

procedure Show(t: Town);
begin
  if t <> Aachen then Show(Before[t]);
  Write(Chr(Ord('A') + Ord(t)));
end;

begin
  for t := Aachen to Fulda do Distance[t] := Far;
  Distance[Aachen] := 0;
  Done := [];
  for k := 1 to 6 do
  begin
    Next := Aachen;
    while Next in Done do Next := Succ(Next);
    for t := Aachen to Fulda do
      if not (t in Done) and (Distance[t] < Distance[Next]) then Next := t;
    Include(Done, Next);
    for t := Aachen to Fulda do
      if (Roads[Next, t] > 0) and (Distance[Next] + Roads[Next, t] < Distance[t]) then
      begin
        Distance[t] := Distance[Next] + Roads[Next, t];
        Before[t] := Next;
      end;
  end;
  for t := Aachen to Fulda do
  begin
    Write(Distance[t]:3, ' ');
    Show(t);
    WriteLn;
  end;
end.
