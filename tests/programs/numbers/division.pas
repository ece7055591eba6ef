{ div cuts towards zero, and mod has the sign of the dividend. }
program Division;
var
  Dividend, Divisor: Integer;
begin
  for Dividend := -7 to 7 do
  begin
    Write(Dividend:3);
    for Divisor := -3 to 3 do
      if Divisor <> 0 then
        Write(Dividend div Divisor:5, Dividend mod Divisor:3);
    WriteLn;
  end;
  Dividend := -2147483648;
  WriteLn(Dividend div 2, ' ', Dividend mod 2, ' ', Dividend div MaxInt, ' ', Dividend mod MaxInt);
  WriteLn(MaxInt div Dividend, ' ', MaxInt mod Dividend, ' ', Dividend div Dividend, ' ', Dividend mod Dividend);
  WriteLn(Dividend div 1, ' ', Dividend mod 1, ' ', Dividend div 10, ' ', Dividend mod 10);
end.
