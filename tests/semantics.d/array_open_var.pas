{ A var open array stores into its argument, of which another routine gets it too }
var d: array of String; s: array[0..1] of String;
procedure P(var a: array of String; const t: String);
var i: Integer;
begin
  for i := 0 to High(a) do a[i] := a[i] + t;
  if t = 'x' then P(a, 'y!')
end;
begin
  SetLength(d, 2);
  d[1] := 'd';
  P(d, 'x');
  P(s, 'z');
  WriteLn(d[0], ' ', d[1], ' ', s[0], s[1])
end.
