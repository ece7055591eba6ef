{ A thousand activations at a time, each with variables of its own. }
program DeepRecursion;
type
  Row = array [1..8] of Integer;

function Sum(Depth: Integer): Integer;
var
  r: Row;
  k: Integer;
begin
  for k := 1 to 8 do r[k] := Depth * k;
  if Depth = 0 then Exit(0);
  Result := Sum(Depth - 1);
  for k := 1 to 8 do Result := Result + r[k] - Depth * k + 1;
end;

begin
  WriteLn(Sum(10), ' ', Sum(1000));
end.
