{ Faults that Val finds, with the place of the first wrong character }
var v, c: Integer;
procedure P(const s: String);
begin
  v := 5;
  Val(s, v, c);
  WriteLn(v, ' ', c)
end;
begin
  P(''); P('-'); P('12x'); P('y1'); P('   '); P('1-'); P('--1');
  P('$'); P('$g'); P('%2'); P('&8'); P('+ 1')
end.
