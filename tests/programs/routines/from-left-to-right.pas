{ not as Free Pascal: it leaves the order open. Operands, arguments and indices are evaluated from the left to the right. }
program FromLeftToRight;
var
  a: array [0..9, 0..9] of Integer;
  n: Integer;

function Tell(n: Integer): Integer;
begin
  Write(n, ' ');
  Tell := n;
end;

procedure Three(a, b, c: Integer);
begin
  WriteLn('= ', a + b + c);
end;

function Bump: Integer;
begin
  n := n + 1;
  Bump := n;
end;

begin
  Three(Tell(1), Tell(2) + Tell(3), Tell(4));
  WriteLn('= ', Tell(1) + Tell(2) * Tell(3) - Tell(4));
  WriteLn('= ', Tell(1) > Tell(2), ' ', Tell(5) in [Tell(3)..Tell(4), Tell(5)]);
  a[Tell(1), Tell(2)] := Tell(3) + a[Tell(4), Tell(5)];
  WriteLn('= ', a[1, 2]);
  Inc(a[Tell(6), Tell(7)], Tell(8));
  WriteLn('= ', a[6, 7]);
  n := 1;
  WriteLn(n + Bump, ' ', Bump + n, ' ', n - Bump + n * Bump);
  n := 5;
  a[n, n] := Bump;
  WriteLn(a[5, 5], ' ', a[6, 6]);
end.
