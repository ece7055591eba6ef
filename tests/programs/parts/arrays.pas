{ Arrays by Integers, Chars, Booleans and enumerations, with bounds below 0, and of several dimensions. }
program Arrays;
type
  Light = (Red, Amber, Green);
var
  a: array [-3..3] of Integer;
  Letters: array ['a'..'e'] of Byte;
  Truths: array [Boolean] of Char;
  Lights: array [Light] of Boolean;
  Parts: array [Amber..Green, Boolean, 2..3] of SmallInt;
  k: Integer;
  c: Char;
  f: Boolean;
  l: Light;
begin
  for k := -3 to 3 do a[k] := k * k * k;
  for c := 'a' to 'e' do Letters[c] := Ord(c) * 2;
  Truths[False] := 'n'; Truths[True] := 'y';
  for l := Red to Green do Lights[l] := l = Amber;
  for l := Amber to Green do
    for f := False to True do
      for k := 2 to 3 do Parts[l, f, k] := 100 * Ord(l) + 10 * Ord(f) + k;
  for k := 3 downto -3 do Write(a[k], ' ');
  for c := 'a' to 'e' do Write(Letters[c], ' ');
  WriteLn(Truths[3 > 2], Truths[a[0] > 0]);
  for l := Red to Green do Write(Lights[l], ' ');
  WriteLn(Parts[Amber, False, 2], ' ', Parts[Green][True][3], ' ', Parts[Amber][True, 2], ' ', Parts[Green, False][3]);
  WriteLn(a[a[1] + a[-1]], ' ', a[Letters['b'] - 195], ' ', a[-3] + a[3]);
end.
