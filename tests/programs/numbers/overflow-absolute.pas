{ not as Free Pascal: it does not check Abs. Abs of the least number is 0 less that number: error 215 under overflow checks. }
program OverflowAbsolute;
var
  Number: Integer;
begin
  Number := -2147483648;
  WriteLn(Abs(Number));
  {$Q+}
  WriteLn('checked');
  WriteLn(Abs(Number));
  WriteLn('not reached');
end.
