{ A piece that is the whole text is a text of its own }
var s, t: String;
begin
  s := 'ab';
  s := s + 'c';
  t := Copy(s, 1, 3);
  t[2] := '-';
  WriteLn(s, t, s = t)
end.
