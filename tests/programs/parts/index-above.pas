{ not as Free Pascal: it checks indices under R alone. An index past the bounds is error 201 in any case. }
program IndexAbove;
var
  a: array [1..3] of Integer;
  k: Integer;
begin
  for k := 1 to 4 do
  begin
    a[k] := k;
    WriteLn(a[k]);
  end;
end.
