{ A procedure halts that a function calls in the middle of an expression: what was written before stays, and nothing else is evaluated. }
program HaltInExpression;
var
  Calls: Integer;

procedure Stop(n: Integer);
begin
  WriteLn('stop ', n);
  if n > 2 then Halt(10 * n + Calls);
  WriteLn('on');
end;

function Sum(n: Integer): Integer;
begin
  Inc(Calls);
  Stop(n);
  if n = 0 then Sum := 0 else Sum := n + Sum(n - 1);
end;

begin
  WriteLn('two: ', Sum(2));
  Write('four: ', 1 + 2 * Sum(4));
  WriteLn('never');
end.
