{ Each activation does its own finally part as it is left. }
program FinallyInRecursion;
var
  Open, Most: Integer;

function Visit(n: Integer): Integer;
begin
  Inc(Open);
  if Open > Most then Most := Open;
  try
    Write(n, ' ');
    if n < 2 then Exit(n);
    Visit := Visit(n - 1) + Visit(n - 2);
  finally
    Dec(Open);
    Write('/', n, ' ');
  end;
end;

begin
  WriteLn(Visit(4));
  WriteLn(Open, ' ', Most);
end.
