program Steps;
type
  Level = 1..3;
  Heights = array [Level] of Byte;
const
  Double = 2;
var
  L: Level;
  H: Heights;
function Height(N: Level): Integer;
begin
  Height := Double * N;
end;
begin
  for L := 1 to 3 do H[L] := Height(L);
end.
