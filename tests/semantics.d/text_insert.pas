{ Insert in front, within, behind and of nothing }
var s: String;
begin
  s := 'bc';
  Insert('a', s, 1);
  Insert('e', s, 99);
  Insert('d', s, 4);
  WriteLn(s);
  Insert('', s, 2);
  Insert(s, s, 3);
  Insert('<', s, -4);
  WriteLn(s)
end.
