{ not as Free Pascal: it checks under R alone. What goes to a subrange is checked in any case: error 201. }
program SubrangeLeft;
type
  Digit = 0..9;
var
  d: Digit;
  n: Integer;
begin
  n := 7;
  while True do
  begin
    d := n;
    WriteLn(d);
    n := n + 1;
  end;
end.
