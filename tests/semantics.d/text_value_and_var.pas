{ One variable as a value and as var: the value keeps the old text }
var s: String;
procedure P(a: String; var b: String);
begin
  b := b + '1';
  b[1] := 'X';
  WriteLn(a, ' ', b, ' ', s)
end;
begin
  s := 'ab';
  s := s + 'c';
  P(s, s);
  WriteLn(s)
end.
