{ Str of numbers, alone and with a width }
var s: String;
begin
  Str(0, s); WriteLn(s);
  Str(-2147483647 - 1, s); WriteLn(s, Length(s));
  Str(42:5, s); WriteLn('[', s, ']');
  Str(42:1, s); WriteLn('[', s, ']');
  Str(-3:4, s); WriteLn('[', s, ']')
end.
