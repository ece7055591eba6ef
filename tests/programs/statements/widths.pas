{ A width pads with blanks on the left and never cuts; one below 1 is none. }
program Widths;
var
  k, n: Integer;
  Small: Byte;
begin
  n := -1234;
  for k := -1 to 8 do
    WriteLn('[', n:k, '|', 'ab':k, '|', 'c':k, '|', True:k, '|', n < 0:k, '|', False:k, ']');
  WriteLn('[', -2147483648:11, '|', -2147483648:12, '|', MaxInt:10, '|', MaxInt:11, ']');
  Small := 7;
  WriteLn(Small:Small, Small + 1:Small - 4, 'x':n + 1236, '':3, '|');
  WriteLn(5:1, 5:0, 55:1, ' ', Ord('a'):4, Chr(98):4);
  Write('no line end');
  Write(':', 1, 2:2, 3:3);
  WriteLn;
  WriteLn;
  WriteLn(1 = 1, 1 = 2, 'a', 'bc', #100);
end.
