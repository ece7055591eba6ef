{ not as Free Pascal: it checks under R alone. A bound out of the counter's type is error 201 where there is a turn, before the first one. }
program CounterOutOfRange;
var
  b: Byte;
  Last: Integer;
begin
  Last := -1;
  for b := 0 to Last do WriteLn('never');
  Last := 256;
  for b := Last to 255 do WriteLn('never');
  WriteLn('no turn');
  for b := 254 to Last do WriteLn(b);
  WriteLn('not reached');
end.
