{ not as Free Pascal: here an activation is charged by its text. 400 + 308 + 4 * 9366 + 2501 * 404 are all 1,048,576 bytes of the stack. }
program StackToTheLastWord;

procedure Down(n: Integer);
begin
  if n > 0 then Down(n - 1);
end;

procedure Fit(n: Integer);
var
  Filling: array [1..9366] of Integer;
begin
  Down(n);
end;

procedure Pass(n: Integer);
var
  Filling: array [1..9367] of Integer;
begin
  Down(n);
end;

begin
  Fit(2500);
  WriteLn('full');
  Pass(2500);
  WriteLn('not reached');
end.
