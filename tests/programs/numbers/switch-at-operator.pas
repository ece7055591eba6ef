{ not as Free Pascal: it takes the switch behind the right operand. The switch Q counts that stands where the operator stands. }
program SwitchAtOperator;
var
  Top, One: Integer;
begin
  Top := MaxInt;
  One := 1;
  WriteLn((Top + One) {$Q+} + One);
  WriteLn(({$Q-} Top + One {$Q+}) div 2);
  {$Q-}
  WriteLn(Top * 2 + 3);
  {$Q+}
  WriteLn(Top div 2 * 2 {$Q-} + 2);
  WriteLn(Top + {$Q+} One);
  WriteLn(Top + One);
  WriteLn('not reached');
end.
