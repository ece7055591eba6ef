{ The greatest common divisor of two numbers, and the factors that make it of them. }
program Divisors;

{ Gives the greatest common divisor d = x * a + y * b. }
procedure Divide(a, b: Integer; out d, x, y: Integer);
var
  Factor: Integer;
begin
  if b = 0 then
  begin
    d := a;
    x := 1;
    y := 0;
  end
  else
  begin
    { d = Factor * b + x * (a mod b) }
    Divide(b, a mod b, d, Factor, x);
    y := Factor - a div b * x;
  end;
end;

procedure Show(a, b: Integer);
var
  d, x, y: Integer;
begin
  Divide(a, b, d, x, y);
  WriteLn(d:6, ' = ', x, ' * ', a, ' + ', y, ' * ', b);
end;

begin
  Show(48, 36);
  Show(1071, 462);
  Show(1000, 999);
  Show(46368, 28657);
  Show(2147483647, 65536);
end.
