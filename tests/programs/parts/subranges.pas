{ Subranges of integers, Chars and enumerations: they mix with their hosts. }
program Subranges;
type
  Light = (Red, Amber, Green, Off);
  Digit = 0..9;
  Low = -5..5;
  Lower = 'a'..'z';
  Lit = Red..Green;
var
  d: Digit;
  n: Integer;
  l: Low;
  c: Lower;
  s: Lit;
  t: Light;
  Counts: array [Lower] of Digit;
begin
  d := 9;
  n := d * d + 1;
  l := d - 14;
  WriteLn(d, ' ', n, ' ', l, ' ', d + l, ' ', d > l, ' ', -l);
  d := n mod 10;
  c := 'y';
  c := Succ(c);
  Counts[c] := 5;
  Inc(Counts['z'], 4);
  s := Amber;
  t := Succ(s);
  s := t;
  WriteLn(d, ' ', c, ' ', Counts['z'], ' ', Ord(s), ' ', t = s, ' ', t < Off);
  for s := Red to Green do Write(Ord(s));
  for d := 0 to 9 do Write(d);
  for c := 'p' to 't' do Write(UpCase(c));
  WriteLn;
end.
