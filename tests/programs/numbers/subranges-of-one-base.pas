{ Two subranges of one base go to one another, and each store is checked. }
{$R+}
program SubrangesOfOneBase;
type
  Small = 0..9;
  Large = -100..100;
  Day = (Monday, Tuesday, Wednesday, Thursday, Friday);
  Early = Monday..Wednesday;
  Late = Tuesday..Friday;
  Digit = '0'..'9';
  Sign = '('..'5';
var
  s: Small;
  l: Large;
  e: Early;
  t: Late;
  d: Digit;
  g: Sign;

procedure Take(n: Small);
begin
  WriteLn('took ', n);
end;

begin
  l := 7;
  s := l;
  Take(s);
  Take(l);
  l := s;
  t := Wednesday;
  e := t;
  WriteLn(Ord(e), ' ', l);
  g := '3';
  d := g;
  WriteLn(d);
  l := -1;
  s := l;
  WriteLn('not reached');
end.
