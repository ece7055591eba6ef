{ The Char 255 cannot be counted up }
var c: Char;
begin
  c := #254;
  Inc(c);
  WriteLn(Ord(c));
  Inc(c);
  WriteLn('never')
end.
