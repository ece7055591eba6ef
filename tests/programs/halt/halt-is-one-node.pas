{ not as Free Pascal: here an activation is charged by its text, and Halt alone is one node. 400 + 308 + 4 * 7867 + 2100 * 484 are all 1,048,576 bytes of the stack. }
program HaltIsOneNode;

procedure Down(n: Integer);
begin
  if n > 0 then Down(n - 1) else if n < 0 then Halt;
end;

procedure Fit(n: Integer);
var
  Filling: array [1..7867] of Integer;
begin
  Down(n);
end;

procedure Pass(n: Integer);
var
  Filling: array [1..7868] of Integer;
begin
  Down(n);
end;

begin
  Fit(2099);
  WriteLn('full');
  Pass(2099);
  WriteLn('not reached');
end.
