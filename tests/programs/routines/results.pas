{ A result is what was stored last by the function's name, by Result or by Exit. }
program Results;

function ByName(n: Integer): Integer;
begin
  ByName := n;
  if n > 10 then ByName := 10;
end;

function ByResult(n: Integer): Integer;
begin
  Result := 1;
  while n > 0 do
  begin
    Result := Result * n;
    Dec(n);
  end;
end;

function ByExit(n: Integer): Integer;
begin
  Result := -1;
  if n = 1 then Exit(11);
  if n = 2 then Exit;
  ByExit := 33;
  if n = 3 then Exit;
  Result := Result + n;
end;

function Twice(n: Integer): Byte;
begin
  Twice := n;
  Twice := Result * 2;
end;

begin
  WriteLn(ByName(5), ' ', ByName(50), ' ', ByResult(6), ' ', ByResult(0));
  WriteLn(ByExit(1), ' ', ByExit(2), ' ', ByExit(3), ' ', ByExit(4));
  WriteLn(Twice(100), ' ', Twice(200), ' ', Twice(-1));
end.
