{ not as Free Pascal: it checks indices under R alone. A bad index of an argument is error 201, after all arguments are evaluated. }
program IndexAtCall;
var
  a: array [1..3, 1..2] of Integer;
  k: Integer;

function Tell(n: Integer): Integer;
begin
  WriteLn('argument ', n);
  Tell := n;
end;

procedure Change(var n: Integer; m: Integer);
begin
  n := m;
  WriteLn('changed');
end;

begin
  k := 2;
  Change(a[k, k], Tell(5));
  k := 3;
  Change(a[k, k], Tell(6));
end.
