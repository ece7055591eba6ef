{ not built yet: for in. It goes over the elements of an array in the order of its index. }
program InArray;
type
  Light = (Red, Amber, Green);
const
  Words: array [Light] of Char = ('r', 'a', 'g');
var
  a: array [-1..2] of Integer;
  n, Sum: Integer;
  c: Char;
begin
  for n := -1 to 2 do a[n] := 10 - n * n;
  for n in a do Write(n, ' ');
  WriteLn;
  Sum := 0;
  for n in a do
  begin
    if n = 9 then Continue;
    Sum := Sum * 100 + n;
    if n = 10 then Break;
  end;
  WriteLn(Sum);
  for c in Words do Write(c);
  WriteLn;
end.
