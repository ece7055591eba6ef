{ for in over a static array, a dynamic array, a text and a set }
var s: array[3..5] of Integer; d: array of String; i: Integer; t: String; c: Char;
  b: set of 0..9;
begin
  s[3] := 1; s[5] := 2;
  for i in s do Write(i, ' ');
  SetLength(d, 2);
  d[1] := 'dd';
  for t in d do Write('[', t, ']');
  for c in 'xyz' do Write(c, ' ');
  b := [7, 2, 4];
  for i in b do Write(i, ' ');
  for i in [1, 8..9] do Write(i);
  WriteLn
end.
