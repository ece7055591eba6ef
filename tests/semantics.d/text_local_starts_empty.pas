{ A local text starts empty at each call, one with a first value starts with that }
procedure P;
var t: String; u: String = 'first';
begin
  WriteLn(Length(t), u);
  t := 'used';
  u := u + t
end;
begin
  P;
  P
end.
