{ not as Free Pascal: it does not check Sqr. A square past the greatest number is error 215 under overflow checks. }
program OverflowSquare;
var
  Number, One: Integer;
begin
  Number := 46341;
  One := 1;
  WriteLn(Sqr(Number));
  {$Q+}
  WriteLn('checked');
  WriteLn(Sqr(Number));
  WriteLn('not reached');
end.
