{ Succ and Pred of an Integer are a sum and a difference: they wrap, and are error 215 when checked. }
program OverflowSuccessor;
var
  Number: Integer;
begin
  Number := MaxInt;
  WriteLn(Succ(Number));
  Number := -2147483648;
  WriteLn(Pred(Number));
  {$Q+}
  WriteLn(Succ(Number));
  WriteLn(Pred(Number));
  WriteLn('not reached');
end.
