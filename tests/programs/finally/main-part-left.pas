{ Exit leaves the main part through its finally parts; the status is 0. }
program MainPartLeft;
var
  k: Integer;
begin
  try
    for k := 1 to 10 do
      try
        Write(k, ' ');
        if k = 3 then Exit;
      finally
        WriteLn('inner');
      end;
  finally
    WriteLn('outer');
  end;
  WriteLn('never');
end.
