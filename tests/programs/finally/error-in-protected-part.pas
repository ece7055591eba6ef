{ not as Free Pascal: there finally parts are done. A run-time error ends the program: no finally part is done. }
program ErrorInProtectedPart;
var
  Zero: Integer;

procedure Divide;
begin
  try
    WriteLn(1 div Zero);
  finally
    WriteLn('never');
  end;
end;

begin
  try
    WriteLn('before');
    Divide;
  finally
    WriteLn('nor this');
  end;
end.
