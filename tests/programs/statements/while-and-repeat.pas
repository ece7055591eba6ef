{ while tests in front of its body, repeat behind it. }
program WhileAndRepeat;
var
  n, Steps: Integer;
begin
  n := 0;
  while n > 0 do
    WriteLn('never');
  repeat
    WriteLn('once');
  until n = 0;
  n := 27;
  Steps := 0;
  while n <> 1 do
  begin
    if Odd(n) then n := 3 * n + 1 else n := n div 2;
    Inc(Steps);
  end;
  WriteLn(Steps);
  repeat
    Write(n, ' ');
    n := n * 3;
    if n > 200 then
      Write('large ');
  until n > 500;
  WriteLn;
  while n > 0 do
    repeat
      Dec(n, 100);
      Write(n, ' ');
    until Odd(n);
  WriteLn;
  repeat until True;
  while False do;
end.
