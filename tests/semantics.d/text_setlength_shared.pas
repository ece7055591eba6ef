{ After SetLength the variable is the only holder, even with the same length }
var s, t: String;
begin
  s := 'ab';
  s := s + 'c';
  t := s;
  SetLength(t, 3);
  t[1] := 'X';
  WriteLn(s, t);
  t := s;
  SetLength(t, 1);
  SetLength(s, 5);
  WriteLn(t, Length(s), s[3])
end.
