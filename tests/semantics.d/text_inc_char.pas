{ Counting a Char up and down, in a variable and in a field }
type R = record c: Char; end;
var c: Char; x: R; a: array[0..1] of Char;
begin
  c := 'a';
  Inc(c);
  Inc(c, 2);
  x.c := 'z';
  Dec(x.c, 3);
  a[1] := Succ(c);
  a[0] := Pred(c);
  WriteLn(c, x.c, a[0], a[1])
end.
