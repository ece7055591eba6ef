{ Local arrays and records start empty in each call and end with it }
type R = record s: String; a: array of String; end;
procedure P(n: Integer);
var x: R; t: array[0..1] of String;
begin
  WriteLn(Length(x.s), Length(x.a), Length(t[1]));
  x.s := 'ab';
  x.s := x.s + 'c';
  SetLength(x.a, 2);
  x.a[1] := x.s;
  t[1] := x.a[1] + 'd';
  if n > 0 then P(n - 1);
  WriteLn(t[1])
end;
begin
  P(1)
end.
