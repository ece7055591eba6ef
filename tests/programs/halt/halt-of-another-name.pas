{ A routine of the program may hide Halt, which is then reached by the name of its unit. }
program HaltOfAnotherName;

procedure Halt(const a, b: Integer);
begin
  WriteLn('not yet: ', a + b);
  System.Halt(a * b);
end;

begin
  Halt(6, 7);
end.
