{ What the second operand of `and` makes ends with the condition, and is not made where the first one is False }
var
  s, t: String;
  b: Boolean;
begin
  s := 'x';
  t := 'y';
  b := Length(s) = 1;
  if b and (s + t = 'xy') then WriteLn('yes');
  b := not b;
  if b and (s + t = 'xy') then WriteLn('no');
  WriteLn('next')
end.
