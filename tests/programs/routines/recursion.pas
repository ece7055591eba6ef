{ Recursion: factorials, powers, Fibonacci and Ackermann numbers, digits from the front. }
program Recursion;

function Factorial(n: Integer): Integer;
begin
  if n <= 1 then Factorial := 1 else Factorial := n * Factorial(n - 1);
end;

function Power(b, n: Integer): Integer;
begin
  if n = 0 then Power := 1
  else if Odd(n) then Power := b * Power(b, n - 1)
  else Power := Sqr(Power(b, n div 2));
end;

function Fibonacci(n: Integer): Integer;
begin
  if n < 2 then Exit(n);
  Result := Fibonacci(n - 1) + Fibonacci(n - 2);
end;

function Ackermann(m, n: Integer): Integer;
begin
  if m = 0 then Exit(n + 1);
  if n = 0 then Exit(Ackermann(m - 1, 1));
  Exit(Ackermann(m - 1, Ackermann(m, n - 1)));
end;

procedure Digits(n: Integer);
begin
  if n > 9 then Digits(n div 10);
  Write(' ', n mod 10);
end;

begin
  WriteLn(Factorial(0), ' ', Factorial(12), ' ', Factorial(13));
  WriteLn(Power(2, 30), ' ', Power(-3, 9), ' ', Power(7, 0), ' ', Power(2, 31));
  WriteLn(Fibonacci(20), ' ', Ackermann(2, 9), ' ', Ackermann(3, 3));
  Digits(9071);
  WriteLn;
end.
