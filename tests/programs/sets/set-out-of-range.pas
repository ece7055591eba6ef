{ not as Free Pascal: it checks nothing here. A set goes to one over fewer values where it has no other elements, else it is error 201. }
program SetOutOfRange;
var
  s: set of 0..31;
  Digits: set of 0..9;
  k: Integer;
begin
  s := [1, 9];
  Digits := s;
  WriteLn(9 in Digits);
  for k := 8 to 10 do
  begin
    Include(s, k);
    Digits := s;
    WriteLn(k in Digits);
  end;
end.
