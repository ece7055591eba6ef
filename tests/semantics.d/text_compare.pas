{ All six comparisons, with a text that begins another one }
var s, t: String;
procedure P;
begin
  WriteLn(s = t, s <> t, s < t, s <= t, s > t, s >= t)
end;
begin
  s := 'ab'; t := 'abc'; P;
  s := 'b'; P;
  t := 'b'; P;
  s := ''; P;
  t := ''; P
end.
