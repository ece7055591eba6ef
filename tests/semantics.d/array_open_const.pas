{ A const open array looks at its argument in place }
var d: array of Integer; s: array['a'..'c'] of Integer;
function Sum(const a: array of Integer): Integer;
var i: Integer;
begin
  Result := Low(a);
  for i := 0 to High(a) do Result := Result + a[i];
  if d <> nil then d[0] := d[0] + 1
end;
begin
  SetLength(d, 2);
  d[1] := 5;
  s['b'] := 3;
  WriteLn(Sum(d), ' ', Sum(d), ' ', Sum(s), ' ', Sum([1, 2, d[1]]))
end.
