{ Inc of the greatest number wraps, and is error 215 when it is checked. }
program OverflowIncrement;
var
  Number: Integer;
begin
  Number := MaxInt;
  Inc(Number);
  WriteLn(Number);
  Dec(Number);
  WriteLn(Number);
  {$Q+}
  Dec(Number, -1);
  WriteLn('not reached');
end.
