{ not as Free Pascal: there the outer finally part is done. A run-time error in a finally part ends the program too. }
program ErrorInFinallyPart;
var
  Zero: Integer;
begin
  try
    try
      WriteLn('protected');
    finally
      WriteLn('finally');
      WriteLn(1 mod Zero);
      WriteLn('never');
    end;
  finally
    WriteLn('nor this');
  end;
end.
