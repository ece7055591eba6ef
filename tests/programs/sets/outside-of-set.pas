{ A number that no set has is in none. }
program OutsideOfSet;
var
  s: set of 0..31;
  Digits: set of 0..9;
  k: Integer;
  b: Byte;
begin
  s := [0..31];
  Digits := [0..9];
  for k := -2 to 2 do Write(k in s, ' ', k in Digits, ' ');
  WriteLn;
  for k := 9 to 12 do Write(k in Digits, ' ');
  for k := 30 to 34 do Write(k in s, ' ');
  WriteLn;
  b := 255;
  k := MaxInt;
  WriteLn(b in s, ' ', k in s, ' ', -k - 1 in s, ' ', 64 + k in s);
end.
