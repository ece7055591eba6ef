{ Halt within a call ends the program: the globals go, what the call holds stays }
var g: String;
procedure P(a: String);
var t: String;
begin
  t := a + '!';
  WriteLn(t);
  Halt(3)
end;
begin
  g := 'glob';
  g := g + 'al';
  P(g);
  WriteLn('never')
end.
