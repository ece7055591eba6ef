{ Constructors with variables and ranges of variables; a range the other way round is empty. }
program SetConstructors;
type
  Small = set of 0..31;
var
  a, b, k, Last: Byte;
  s: Small;
begin
  a := 3; b := 6; Last := 31;
  s := [a, b + 20, a..b, b..a, a * 9];
  for k := 0 to 31 do
    if k in s then Write(k, ' ');
  WriteLn;
  k := 28;
  s := [a..a, k..Last];
  WriteLn(3 in s, ' ', 27 in s, ' ', 28 in s, ' ', 31 in s, ' ', [b..a] = [], ' ', s = [28..31, 3]);
  for k := 5 to 7 do
    if k in [a..b] then Write(k, ' inside ') else Write(k, ' outside ');
  WriteLn;
  WriteLn(a in [3], ' ', a + b in [0, 9], ' ', not (a in [1, 2]), ' ', (a in [3]) = (b in [6]));
end.
