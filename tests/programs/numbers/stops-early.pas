{ and and or evaluate their right operand only where it counts. }
program StopsEarly;
var
  Asked: Integer;

function Tell(Answer: Boolean): Boolean;
begin
  Inc(Asked);
  Write(Answer, ' ');
  Tell := Answer;
end;

begin
  if Tell(False) and Tell(True) then WriteLn('both') else WriteLn('not both');
  if Tell(True) and Tell(True) then WriteLn('both') else WriteLn('not both');
  if Tell(True) or Tell(False) then WriteLn('one') else WriteLn('none');
  if Tell(False) or Tell(False) then WriteLn('one') else WriteLn('none');
  if Tell(False) and Tell(True) or Tell(True) and Tell(False) or Tell(True) then WriteLn('last');
  if Tell(True) xor Tell(True) then WriteLn('odd') else WriteLn('even');
  WriteLn(Asked);
  if (Asked = 0) or (100 div Asked > 5) then WriteLn('enough');
  Asked := 0;
  if (Asked <> 0) and (100 div Asked > 5) then WriteLn('never') else WriteLn('no division');
end.
