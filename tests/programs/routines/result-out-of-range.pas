{ not as Free Pascal: it checks under R alone. What goes to a parameter or a result of a subrange is always checked. }
program ResultOutOfRange;
type
  Digit = 0..9;
var
  n: Integer;

function Last(n: Integer): Digit;
begin
  Last := n mod 10;
end;

function First(d: Digit): Integer;
begin
  First := d + 1;
end;

begin
  for n := 8 to 9 do Write(First(n), ' ');
  WriteLn(Last(19));
  WriteLn(Last(-1));
end.
