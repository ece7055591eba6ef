{ Delete at its edges, with a second holder that keeps the old text }
var s, t: String;
begin
  s := 'abcdef';
  t := s;
  Delete(s, 2, 2);
  WriteLn(s);
  Delete(s, 0, 2);
  Delete(s, 5, 1);
  Delete(s, 1, 0);
  WriteLn(s);
  Delete(s, 3, 99);
  WriteLn(s, ' ', t)
end.
