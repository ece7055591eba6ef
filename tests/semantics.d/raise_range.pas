{ Checked stores to subranges and enumerations raise }
uses SysUtils;
type S = 1..9; E = (red, green);
var x: S; k: Integer; c: E;
begin
  k := 10;
  x := 9;
  try x := k except on ERangeError do WriteLn('x ', x) end;
  c := green;
  try Inc(c) except on ERangeError do WriteLn('c ', Ord(c)) end;
  {$R+}
  try WriteLn(Length(Copy('abc', 1, x))); x := x + 1 except on ERangeError do WriteLn('r ', x) end
end.
