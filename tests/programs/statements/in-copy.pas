{ not built yet: for in. It goes over a copy of the array. }
{ not as Free Pascal: it goes over the array itself. }
program InCopy;
var
  a: array [1..4] of Integer;
  k, n: Integer;
begin
  for k := 1 to 4 do a[k] := k;
  for n in a do
  begin
    for k := 1 to 4 do a[k] := 0;
    Write(n, ' ');
  end;
  WriteLn(a[4]);
end.
