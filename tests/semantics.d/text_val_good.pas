{ Spellings that Val takes }
var v, c: Integer;
procedure P(const s: String);
begin
  Val(s, v, c);
  WriteLn(v, ' ', c)
end;
begin
  P('12'); P('-7'); P('+5'); P('  3');
  P('$fF'); P('%101'); P('&17'); P('007');
  P('2147483647'); P('-2147483648'); P('$FFFFFFFF')
end.
