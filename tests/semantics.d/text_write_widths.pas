{ Write with widths: texts, Chars, numbers and Booleans are padded and never cut }
var s: String; w: Integer;
begin
  s := 'abc';
  w := 6;
  WriteLn('[', s:w, '][', s:2, '][', 'x':3, ']');
  WriteLn('[', 12:4, '][', -12:2, '][', 1 = 1:6, '][', 1 = 2:1, ']');
  WriteLn('[', s:0, '][', ' ':1, ']')
end.
