{ A loop within a finally part has its own Break and Continue, also while the part leaves for another reason. }
program LoopsInFinally;
var
  k: Integer;

procedure Count(n: Integer);
var
  j, k: Integer;
begin
  for k := 1 to 9 do
    try
      if k = n then Exit;
      if k = 4 then Break;
      Write('t', k, ' ');
    finally
      for j := 1 to 5 do
      begin
        if j = 2 then Continue;
        if j = 4 then Break;
        Write(j);
      end;
      while True do
        try
          Break;
        finally
          Write('. ');
        end;
    end;
  Write('end');
end;

begin
  for k := 2 to 5 do
  begin
    Count(k);
    WriteLn;
  end;
end.
