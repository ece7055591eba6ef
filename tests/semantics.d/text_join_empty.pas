{ A sum with an empty side has the other side's text and shares it }
var e, s, t, u: String;
begin
  s := 'ab';
  s := s + 'c';
  t := s + e;
  u := e + s;
  t[1] := 'X';
  WriteLn(s, t, u, e + e, '.')
end.
