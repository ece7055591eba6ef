{ case on a character of a text, with ranges }
var s: String; c: Char;
begin
  s := 'b7-Z';
  for c in s do
    case c of
      'a'..'f', 'A'..'F': Write('letter ');
      '0'..'9': Write('digit ');
      '-': begin Write('minus ') end
      else Write('other ')
    end;
  WriteLn
end.
