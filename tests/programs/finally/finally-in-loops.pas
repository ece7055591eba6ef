{ Break and Continue through several finally parts, in loops within loops. }
program FinallyInLoops;
var
  k, n: Integer;
begin
  for k := 1 to 3 do
  begin
    Write(k, ': ');
    n := 0;
    repeat
      Inc(n);
      try
        try
          if n = k then Continue;
          if n > 3 then Break;
          Write(n);
        finally
          Write('a');
        end;
        Write('-');
      finally
        Write('b');
      end;
      Write(' ');
    until n = 10;
    WriteLn(n);
  end;
  n := 5;
  while n > 0 do
    try
      Dec(n);
      for k := 1 to 5 do
        try
          if k = n then Break;
          Write(k);
        finally
          Write('.');
        end;
      if n = 2 then Break;
    finally
      Write('/', n, ' ');
    end;
  WriteLn;
end.
