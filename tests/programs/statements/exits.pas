{ Exit leaves the routine from within loops; Exit(x) stores its result first; the main part ends too. }
program Exits;
var
  a: array [1..3, 1..3] of Integer;

function Find(n: Integer): Integer;
var
  x, y: Integer;
begin
  for x := 1 to 3 do
  begin
    y := 0;
    while True do
    begin
      Inc(y);
      if y > 3 then Break;
      if a[x, y] = n then Exit(10 * x + y);
    end;
  end;
  Find := -1;
end;

procedure Count(n: Integer);
begin
  if n < 0 then Exit;
  Write(n, ' ');
  Count(n - 1);
  if Odd(n) then Exit;
  Write('/', n, ' ');
end;

var
  x, y: Integer;
begin
  for x := 1 to 3 do
    for y := 1 to 3 do a[x, y] := x * y;
  WriteLn(Find(6), ' ', Find(9), ' ', Find(4), ' ', Find(5));
  Count(5);
  WriteLn;
  for x := 1 to 3 do
    if a[x, 2] > 2 then
    begin
      WriteLn('leaves');
      Exit;
    end;
  WriteLn('not reached');
end.
