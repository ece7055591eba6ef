{ Texts are compared by their bytes from 0 to 255, zero bytes included }
var s, t: String;
begin
  s := 'a'#0'b';
  t := 'a'#0'c';
  WriteLn(s < t, Length(s));
  s := #200;
  t := 'z';
  WriteLn(s > t, 'Z' < 'a', 'a' + t > 'az')
end.
