{ A var parameter is the variable itself, also when it is given twice }
var s: String;
procedure P(var a, b: String);
begin
  a := a + '1';
  b := b + '2';
  WriteLn(a, ' ', b)
end;
begin
  s := 'x';
  P(s, s);
  WriteLn(s)
end.
