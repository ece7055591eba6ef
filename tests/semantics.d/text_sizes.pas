{ Texts whose blocks are just full and just too large for one size }
var s, t: String;
begin
  SetLength(s, 15);
  t := s + 'x';
  WriteLn(Length(s), ' ', Length(t));
  SetLength(s, 31);
  t := s + '';
  SetLength(t, 32);
  WriteLn(Length(s), ' ', Length(t), ' ', Length(s + t))
end.
