{ Write writes one item and then evaluates the next one: what stands in front of an error is out. }
program WriteTakesTurns;
var
  Zero: Integer;
begin
  Zero := 0;
  WriteLn('line');
  Write('before ');
  WriteLn(7, ' ', 1 div Zero, ' after');
end.
