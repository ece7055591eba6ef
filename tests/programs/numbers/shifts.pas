{ Shifts go by the low five bits of the count, and shr takes no notice of the sign. }
program Shifts;
var
  Number, Count: Integer;
begin
  Number := -19;
  for Count := -2 to 3 do
    WriteLn(Count:3, Number shl Count:12, Number shr Count:12);
  for Count := 29 to 34 do
    WriteLn(Count:3, Number shl Count:12, Number shr Count:12);
  Number := 1;
  Count := 31;
  WriteLn(Number shl Count, ' ', Number shl Count shr Count, ' ', (Number shl Count - 1) shr 1);
  Count := 1024 + 4;
  WriteLn(Number shl Count, ' ', MaxInt shr Count);
end.
