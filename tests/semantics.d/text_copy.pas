{ Copy at its edges: first place below 1, too many, none, past the end }
var s: String;
begin
  s := 'abcde';
  WriteLn(Copy(s, 2, 3), '|', Copy(s, 0, 2), '|', Copy(s, -5, 2), '|', Copy(s, 4, 9));
  WriteLn(Copy(s, 5, 1), '|', Copy(s, 6, 1), '|', Copy(s, 2, 0), '|', Copy(s, 2, -1), '|');
  WriteLn(Copy(s, 1, MaxInt), '|', Copy(s, 3, MaxInt), '|', Copy('', 1, 1), '|')
end.
