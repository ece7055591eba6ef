{ in asks of a Char whether it is within a constructor of Chars up to number 31. }
program LettersInSets;
var
  n: Integer;
begin
  for n := 8 to 33 do
    if Chr(n) in [#9, #10, #13, #27..#31] then Write(n, ' ');
  WriteLn;
end.
