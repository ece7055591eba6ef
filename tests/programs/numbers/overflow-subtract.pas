{ A difference below the least number is error 215 under overflow checks. }
program OverflowSubtract;
var
  Number, One: Integer;
begin
  Number := -2147483648;
  One := 1;
  WriteLn(Number - One);
  {$Q+}
  WriteLn('checked');
  WriteLn(Number - One);
  WriteLn('not reached');
end.
