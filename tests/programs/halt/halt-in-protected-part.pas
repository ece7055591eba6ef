{ Halt leaves a protected part, and no finally part is done: neither the ones here, nor those round the call. }
program HaltInProtectedPart;

procedure Leave(n: Integer);
begin
  try
    WriteLn('protected ', n);
    if n = 2 then Halt(n + 20);
  finally
    WriteLn('finally ', n);
  end;
end;

begin
  try
    Leave(1);
    Leave(2);
    WriteLn('never');
  finally
    WriteLn('nor this');
  end;
end.
