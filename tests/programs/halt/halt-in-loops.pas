{ Halt from loops of each form, and from a branch of a case. }
program HaltInLoops;
var
  i, j, Turns: Integer;
begin
  Turns := 0;
  while True do
  begin
    repeat
      for i := 1 to 3 do
        for j := 3 downto 1 do
        begin
          Inc(Turns);
          case Turns of
            1..11: if j = 2 then Continue;
            12: WriteLn('twelve');
            13..19: if i = 2 then Break;
          else
            Halt(Turns + i + j);
            WriteLn('never');
          end;
          Write(Turns, ' ');
        end;
    until False;
    WriteLn('never');
  end;
  WriteLn('never');
end.
