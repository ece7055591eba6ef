{ A finally part is done where the protected part ends, and where Exit, Break and Continue leave it. }
program FinallyParts;
var
  k: Integer;

procedure Leave(n: Integer);
begin
  try
    Write('enter ', n);
    if n = 1 then Exit;
    Write(' stays');
  finally
    Write(' finally');
  end;
  WriteLn(' behind');
end;

begin
  Leave(0);
  Leave(1);
  WriteLn;
  for k := 1 to 4 do
  begin
    try
      if k = 2 then Continue;
      if k = 4 then Break;
      Write(k, ' ');
    finally
      Write('f', k, ' ');
    end;
    Write('end ');
  end;
  WriteLn('done');
end.
