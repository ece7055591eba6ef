{ A text is read into a var parameter and into a field }
{ input: b'first\nsecond\n' }
type R = record n: Integer; s: String; end;
var x: R; t: String;
procedure P(var a: String);
begin
  ReadLn(a);
  WriteLn(a, t, x.s)
end;
begin
  P(t);
  P(x.s)
end.
