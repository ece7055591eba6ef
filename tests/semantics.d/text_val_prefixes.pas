{ No sign stands before a prefix, and x is none; blanks may stand in front alone }
var v, c: Integer;
procedure P(const s: String);
begin
  Val(s, v, c);
  WriteLn(v, ' ', c)
end;
begin
  P('-$1'); P('+%1'); P('0x1'); P('x1'); P('1 '); P(' '#9'7')
end.
