{ The index of a dynamic array is checked, also -1 and of nil }
var a: array of Integer; i: Integer;
begin
  SetLength(a, 1);
  i := -1;
  WriteLn(a[0]);
  WriteLn(a[i])
end.
