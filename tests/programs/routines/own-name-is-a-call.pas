{ not as Free Pascal: there it is the result. A function's own name in an expression is a call, also in its own body: this one calls itself without an end, error 202. }
program OwnNameIsACall;
function Next: Integer;
begin
  Next := 1;
  Next := Next + 1;
end;
begin
  WriteLn('before');
  WriteLn(Next);
end.
