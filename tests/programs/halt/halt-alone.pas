{ Halt without a status ends the program with 0; what was written before is there. }
program HaltAlone;
begin
  WriteLn('before');
  Write('no end of line');
  Halt;
  WriteLn('never');
end.
