{ not as Free Pascal: its stack has another size. Recursion without an end is error 202; no finally part is done. }
program StackOverflow;

procedure Down(n: Integer);
begin
  try
    Down(n + 1);
  finally
    WriteLn('never');
  end;
end;

begin
  WriteLn('down');
  Down(0);
  WriteLn('not reached');
end.
