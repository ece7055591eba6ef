{ not as Free Pascal: here an activation is charged by its text. Of the stack of 1,048,576 bytes Down takes 256 + 4 + 9 * 16 = 404, the main part 256 + 11 * 16 = 432. }
program StackFull;

procedure Down(n: Integer);
begin
  if n > 0 then Down(n - 1);
end;

begin
  Down(38);
  Down(2593);
  WriteLn('full');
  Down(2594);
  WriteLn('not reached');
end.
