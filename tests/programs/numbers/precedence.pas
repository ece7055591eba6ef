{ Which operator binds tighter, and that those of one level are read from the left. }
program Precedence;
var
  a, b, c: Integer;
  f: Boolean;
begin
  a := 7; b := 3; c := -2; f := False;
  WriteLn(a + b * c, ' ', (a + b) * c, ' ', a - b - c, ' ', a - (b - c));
  WriteLn(a div b * b + a mod b, ' ', a * b div c, ' ', a div b div c, ' ', 100 mod a mod b);
  WriteLn(-a + b, ' ', -a * b, ' ', -(a + b), ' ', - - a, ' ', not a + 1, ' ', a - -b);
  WriteLn(a and b or c, ' ', a or b and c, ' ', a xor b xor c, ' ', a or b xor c, ' ', a shl 2 + 1, ' ', 1 + a shl 2);
  WriteLn(not f and f, ' ', not (f and f), ' ', f or not f, ' ', a > b = f, ' ', (a > b) = (b > a), ' ', a + 1 > b * 2);
  WriteLn(a - b + c, ' ', a shr 1 shl 1, ' ', a * b mod 4, ' ', a mod 4 * b, ' ', not a and 255, ' ', -a mod b);
end.
