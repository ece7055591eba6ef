{ Nothing to read: an empty text, the number 0, the end mark }
{ input: b'' }
var s: String; n: Integer; c: Char;
begin
  s := 'old';
  n := 5;
  Read(s);
  Read(n);
  Read(c);
  WriteLn('[', s, ']', n, ' ', Ord(c), Eof, Eoln)
end.
