{ Characters of a variable, of a literal, of a call and of a bracketed sum }
const K = 'klm';
var s: String;
function F: String;
begin
  F := 'fgh'
end;
begin
  s := 'abc';
  WriteLn(s[1], s[3], K[2], F[1], (s + 'd')[4]);
  WriteLn('xyz'[2])
end.
