{ A finally part runs behind the store of Exit(x), and can change the result. }
program FinallyChangesResult;
var
  Log: Integer;

function Doubled(n: Integer): Integer;
begin
  Result := -1;
  try
    if n > 10 then Exit(n);
    if n > 5 then Exit;
    Result := n + 100;
  finally
    Result := Result * 2;
    Inc(Log);
  end;
end;

function Calls(n: Integer): Integer;
begin
  try
    Exit(Doubled(n));
  finally
    Log := Log * 10;
  end;
end;

begin
  WriteLn(Doubled(20), ' ', Doubled(7), ' ', Doubled(1), ' ', Log);
  WriteLn(Calls(11), ' ', Log);
end.
