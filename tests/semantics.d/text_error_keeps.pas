{ An error that ends the program writes nothing more and empties nothing }
var s: String; n: Integer;
begin
  s := 'abc';
  s := s + 'd';
  WriteLn(s, 8 div (n + 4));
  WriteLn(s, 8 div n);
  WriteLn('never')
end.
