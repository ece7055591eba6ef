{ A left side that is a variable keeps its text while the right side changes the variable }
var s: String;
function F: String;
begin
  s := s + '2';
  F := 'f'
end;
begin
  s := 'one';
  WriteLn(s + F);
  WriteLn(s = F + s);
  s := s + F;
  WriteLn(s)
end.
