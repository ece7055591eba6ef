{ Both bounds of a for are evaluated once, the first one first; the body cannot change how often it is done. }
program BoundsOnce;
var
  k, Last: Integer;

function Bound(n: Integer): Integer;
begin
  Write('bound ', n, ' ');
  Bound := n;
end;

begin
  for k := Bound(1) to Bound(4) do Write(k, ' ');
  WriteLn;
  Last := 3;
  for k := 1 to Last do
  begin
    Last := Last + 10;
    Write(k, ' ');
  end;
  WriteLn(Last);
  k := 3;
  for k := k to k + 2 do Write(k, ' ');
  WriteLn;
  for k := k - 1 downto k - 3 do Write(k, ' ');
  WriteLn;
end.
