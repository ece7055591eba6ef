{ The low eight bits of -1 are 255. }
program HaltMinusOne;
begin
  Write('minus one');
  System.Halt(-1);
end.
