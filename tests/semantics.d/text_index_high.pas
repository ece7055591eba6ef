{ The index after the last character is outside, and nothing is stored }
var s: String; i: Integer;
begin
  s := 'abc';
  i := 4;
  s[i] := 'x';
  WriteLn(s)
end.
