{ A var argument within an array that is made longer: the store goes to the old one }
var a, b: array of Integer;
procedure P(var n: Integer);
begin
  SetLength(a, 3);
  n := 7;
  WriteLn(n, a[0])
end;
begin
  SetLength(a, 1);
  a[0] := 1;
  P(a[0]);
  WriteLn(a[0], Length(a), Length(b))
end.
