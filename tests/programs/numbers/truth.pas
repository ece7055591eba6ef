{ not, and, or, xor of Booleans, each with each value. }
program Truth;
var
  a, b: Boolean;
begin
  for a := False to True do
    for b := False to True do
      WriteLn(a:6, b:6, a and b:6, a or b:6, a xor b:6, not a:6, not a and not b:6, a = b:6, not (a or b) = (not a and not b):6);
  a := 3 > 2;
  b := a and (2 > 3) or not a;
  WriteLn(a, ' ', b, ' ', a and b or a xor b);
end.
