{ A function's array is the global's own array }
type T = array of Integer;
var g: T;
function F: T;
begin
  Result := g
end;
begin
  SetLength(g, 2);
  F[1] := 6;
  WriteLn(g[1], F = g, Length(F), F[1])
end.
