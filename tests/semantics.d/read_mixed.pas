{ A number, a Char and the rest of the line with one call }
{ input: b'  12 xyz\nnext\n' }
var n: Integer; c: Char; s, t: String;
begin
  ReadLn(n, c, s);
  Read(t);
  WriteLn(n, '[', c, '][', s, '][', t, ']')
end.
