{ Halt ends all activations at once: none of them goes on. }
program HaltFromRecursion;

procedure Down(n: Integer);
var
  Own: array [1..10] of Integer;
begin
  Own[n mod 10 + 1] := n;
  if n mod 100 = 0 then WriteLn(n);
  if n = 0 then Halt(Own[1] + 7);
  Down(n - 1);
  WriteLn('never ', n);
end;

begin
  Down(300);
  WriteLn('never');
end.
