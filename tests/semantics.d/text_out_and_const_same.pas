{ One variable given as a value and as out: the value is taken first, then the variable is emptied }
var s: String;
procedure P(a: String; out b: String);
begin
  WriteLn(a, Length(b), Length(s));
  b := a + a
end;
begin
  s := 'ab';
  s := s + 'c';
  P(s, s);
  WriteLn(s)
end.
