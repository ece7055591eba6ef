{ An out parameter is empty when its routine begins }
var s: String;
procedure P(out a: String);
begin
  WriteLn(Length(a));
  a := a + 'new'
end;
begin
  s := 'old';
  P(s);
  WriteLn(s)
end.
