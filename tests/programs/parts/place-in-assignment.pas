{ not as Free Pascal: it leaves the order open. The right side comes first, then the indices of the place, and then its path is followed. }
program PlaceInAssignment;
var
  a: array [1..4] of Integer;
  k: Integer;

function Move(n: Integer): Integer;
begin
  k := k + 1;
  WriteLn('moved to ', k);
  Move := n;
end;

begin
  k := 1;
  a[k] := Move(10);
  a[k + 1] := Move(20) + k;
  WriteLn(a[1], ' ', a[2], ' ', a[3], ' ', a[4]);
end.
