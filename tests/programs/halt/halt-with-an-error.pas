{ The status is evaluated first: an error in it ends the program. }
program HaltWithAnError;
var
  Zero: Integer;
begin
  WriteLn('before');
  Halt(7 div Zero);
end.
