{ Open arrays of texts by value: storing into the copy leaves the argument }
var d: array of String;
procedure P(a: array of String);
begin
  a[0] := a[0] + '+';
  a[1][1] := 'Z';
  WriteLn(a[0], a[1])
end;
begin
  SetLength(d, 2);
  d[0] := 'p1';
  d[1] := d[0] + 'q';
  P(d);
  P(['ab', 'cd' + d[0]]);
  WriteLn(d[0], d[1])
end.
