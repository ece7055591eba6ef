{ StringOfChar with a length, none and a negative one }
var s: String;
begin
  s := StringOfChar('-', 4);
  WriteLn(s, Length(StringOfChar('x', 0)), Length(StringOfChar('x', -2)));
  s[2] := '+';
  WriteLn(s)
end.
