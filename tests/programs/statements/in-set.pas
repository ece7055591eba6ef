{ not built yet: for in. It goes over the elements of a set in ascending order. }
program InSet;
type
  Light = (Red, Amber, Green, Off);
var
  s: set of 0..31;
  Lights: set of Light;
  n: Integer;
  l: Light;
begin
  s := [31, 0, 7..9, 3];
  for n in s do Write(n, ' ');
  WriteLn;
  Exclude(s, 8);
  for n in s * [5..30] do
  begin
    Include(s, 20);
    Write(n, ' ');
  end;
  WriteLn(20 in s);
  Lights := [Off, Red];
  for l in Lights do Write(Ord(l), ' ');
  for l in [] do Write('never');
  WriteLn;
end.
