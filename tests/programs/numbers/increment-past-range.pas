{ Inc of a Byte under range checks: error 201 past its end. }
program IncrementPastRange;
var
  Small: Byte;
begin
  Small := 254;
  {$R+}
  Inc(Small);
  WriteLn(Small);
  {$R-}
  Inc(Small);
  WriteLn(Small);
  Dec(Small);
  WriteLn(Small);
  {$R+}
  Inc(Small);
  WriteLn('not reached');
end.
