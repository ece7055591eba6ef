{ not as Free Pascal: it checks under R alone. Dec below a subrange of letters is error 201. }
program SubrangeIncrement;
type
  Early = 'b'..'e';
var
  c: Early;
begin
  c := 'd';
  repeat
    WriteLn(c);
    Dec(c);
  until c = 'a';
end.
