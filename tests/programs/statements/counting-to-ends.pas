{ for comes up to both ends of Integer and ends there. }
program CountingToEnds;
var
  k, Turns: Integer;
  c: Char;
begin
  for k := MaxInt - 2 to MaxInt do Write(k, ' ');
  WriteLn;
  for k := -MaxInt + 1 downto -MaxInt - 1 do Write(k, ' ');
  WriteLn;
  Turns := 0;
  for c := #0 to #255 do Inc(Turns);
  for c := #255 downto #0 do Inc(Turns);
  for k := MaxInt to -MaxInt - 1 do Inc(Turns);
  for k := -MaxInt - 1 downto MaxInt do Inc(Turns);
  WriteLn(Turns);
end.
