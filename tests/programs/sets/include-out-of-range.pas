{ not as Free Pascal: it checks under R alone. Include checks its element against the type of the set: error 201. }
program IncludeOutOfRange;
var
  Digits: set of 0..9;
  k: Integer;
begin
  for k := 8 to 10 do
  begin
    Include(Digits, k);
    WriteLn(k in Digits);
  end;
end.
