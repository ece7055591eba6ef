{ Break and Continue, in each kind of loop and within one another. }
program LeavingLoops;
var
  k, n: Integer;
begin
  for k := 1 to 10 do
  begin
    if k = 3 then Continue;
    if k = 6 then Break;
    Write(k, ' ');
  end;
  WriteLn;
  n := 0;
  while n < 10 do
  begin
    Inc(n);
    if Odd(n) then Continue;
    if n = 8 then Break;
    Write(n, ' ');
  end;
  WriteLn(n);
  repeat
    Dec(n);
    if n = 5 then Continue;
    if n < 3 then Break;
    Write(n, ' ');
  until n = 0;
  WriteLn(n);
  for k := 1 to 3 do
  begin
    n := 0;
    repeat
      Inc(n);
      if n = k then Continue;
      if n > 4 then Break;
      Write(k, n, ' ');
    until False;
    if k = 2 then Continue;
    WriteLn('end of ', k);
  end;
  repeat
    Inc(n);
    if n < 20 then Continue;
    WriteLn('tested');
  until n >= 8;
  WriteLn(n);
end.
