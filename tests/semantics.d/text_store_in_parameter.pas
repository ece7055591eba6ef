{ A character is stored in a value parameter, in a field and in an element }
type R = record s: String; end;
var g: String; x: R; a: array[0..1] of String;
procedure P(t: String);
begin
  t[1] := 'P';
  WriteLn(t)
end;
begin
  g := 'gg';
  x.s := g;
  a[1] := x.s;
  P(a[1]);
  x.s[2] := 'F';
  a[1][1] := 'E';
  WriteLn(g, x.s, a[1])
end.
