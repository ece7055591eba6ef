{ The index of a static array is checked at both ends }
var a: array[2..4] of Integer; i: Integer;
begin
  for i := 2 to 4 do a[i] := i;
  WriteLn(a[2] + a[4]);
  i := 5;
  WriteLn('before');
  a[i] := 1;
  WriteLn('never')
end.
