{ Two routines that call each other, by forward; the body may name the parameters otherwise. }
program TwoCallEachOther;

function IsEven(n: Integer): Boolean; forward;
procedure Pong(n: Integer; var Sum: Integer); forward;

function IsOdd(n: Integer): Boolean;
begin
  if n = 0 then IsOdd := False else IsOdd := IsEven(n - 1);
end;

function IsEven(n: Integer): Boolean;
begin
  if n = 0 then IsEven := True else IsEven := IsOdd(n - 1);
end;

procedure Ping(n: Integer; var Sum: Integer);
begin
  Write('ping ');
  Sum := Sum + n;
  if n > 0 then Pong(n - 1, Sum);
end;

procedure Pong(n: Integer; var Sum: Integer);
begin
  Write('pong ');
  Sum := Sum * 2;
  if n > 0 then Ping(n - 1, Sum);
end;

var
  Total: Integer;
begin
  WriteLn(IsEven(10), ' ', IsOdd(10), ' ', IsEven(7), ' ', IsOdd(7));
  Total := 1;
  Ping(4, Total);
  WriteLn(Total);
end.
