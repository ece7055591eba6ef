{ Globals that still hold texts when the program ends, one of them shared }
var s, t, u: String; a: array[0..1] of String;
begin
  s := 'ab';
  s := s + 'c';
  t := s;
  u := t + s;
  a[1] := u;
  a[0] := 'literal';
  WriteLn(s, t, u, a[0], a[1])
end.
