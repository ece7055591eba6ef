{ A named text, a variable with a first value, and a literal }
const C = 'abc';
var s: String = 'xy';
  t: String;
begin
  t := C;
  WriteLn(s, t, C, 'q');
  s := t;
  WriteLn(s = C)
end.
