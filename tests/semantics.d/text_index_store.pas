{ A character is stored: in a literal's copy, with one holder, and with two holders }
var s, t: String;
begin
  s := 'abc';
  s[2] := 'X';
  s[1] := 'Y';
  t := s;
  t[3] := 'Z';
  s[3] := 'W';
  WriteLn(s, ' ', t)
end.
