{ A variable assigned to itself keeps its text, also when it is the only holder }
var s: String;
begin
  s := 'ab';
  s := s + 'c';
  s := s;
  s := s + '';
  WriteLn(s);
  s := '';
  s := s;
  WriteLn(Length(s))
end.
