{ Halt may stand in a finally part, also in one that Exit or Break runs: what is left of it is not done, nor the finally parts round it. }
program HaltInFinallyPart;
var
  i: Integer;

function Ended(n: Integer): Integer;
begin
  Ended := n;
  try
    if n < 3 then Exit(n * 2);
    WriteLn('to the end');
  finally
    WriteLn('finally ', n);
    if n = 2 then Halt(n * 16 + Result);
    WriteLn('finally done');
  end;
end;

begin
  try
    for i := 1 to 5 do
      try
        WriteLn(Ended(4 - i));
        if i = 2 then Break;
      finally
        WriteLn('turn ', i);
      end;
  finally
    WriteLn('never');
  end;
end.
