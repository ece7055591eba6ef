{ An open array by value is a copy: a static array, a dynamic one, and a list }
var s: array[1..2] of Integer; d: array of Integer;
procedure P(a: array of Integer);
begin
  if High(a) >= 0 then a[0] := a[0] + 1;
  if High(a) >= 0 then WriteLn(a[0], ' ', High(a)) else WriteLn('none')
end;
begin
  s[1] := 5;
  SetLength(d, 3);
  d[0] := 6;
  P(s);
  P(d);
  P([8, 9]);
  P([]);
  d := nil;
  P(d);
  WriteLn(s[1])
end.
