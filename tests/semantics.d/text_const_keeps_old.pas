{ A const parameter keeps its text while the variable behind it changes }
var s: String;
procedure P(const a: String);
begin
  s := s + '2';
  WriteLn(a, ' ', s)
end;
begin
  s := 'on';
  s := s + 'e';
  P(s);
  WriteLn(s)
end.
