{ All orders of four letters, the odd ones marked. }
program Permutations;
const
  Letters = 'abcd';
type
  Place = 1..4;
var
  Order: array [Place] of Place;
  Used: set of Place;
  Count: Integer;

function Turned: Integer;
var
  a, b: Place;
begin
  Turned := 0;
  for a := 1 to 3 do
    for b := a + 1 to 4 do
      if Order[a] > Order[b] then Inc(Result);
end;

procedure Fill(Depth: Integer);
var
  k: Place;
begin
  if Depth > 4 then
  begin
    Inc(Count);
    for k := 1 to 4 do Write(Letters[Order[k]]);
    if Odd(Turned) then Write('* ') else Write('  ');
    if Count mod 6 = 0 then WriteLn;
    Exit;
  end;
  for k := 1 to 4 do
    if not (k in Used) then
    begin
      Include(Used, k);
      Order[Depth] := k;
      Fill(Depth + 1);
      Exclude(Used, k);
    end;
end;

begin
  Fill(1);
  WriteLn(Count);
end.
