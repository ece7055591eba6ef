{ A zero divisor is error 200, with checks and without. }
program DivideByZero;
var
  Divisor: Integer;
begin
  Divisor := 3;
  while True do
  begin
    WriteLn(100 div Divisor);
    Dec(Divisor);
  end;
end.
