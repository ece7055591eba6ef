{ Constants, types and typed constants of a routine. }
program LocalTypes;

function Weight(n: Integer): Integer;
const
  Size = 4;
  Weights: array [1..Size] of Integer = (1, 10, 100, 1000);
type
  Place = 1..Size;
  Digits = array [Place] of 0..9;
var
  k: Place;
  d: Digits;
begin
  for k := 1 to Size do
  begin
    d[k] := n mod 10;
    n := n div 10;
  end;
  Result := 0;
  for k := Low(Place) to High(Place) do
    Result := Result + d[Size + 1 - k] * Weights[k];
end;

begin
  WriteLn(Weight(1234), ' ', Weight(7), ' ', Weight(9900));
end.
