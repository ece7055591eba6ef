{ Pos finds the first place, or 0 }
var s: String;
begin
  s := 'banana';
  WriteLn(Pos('an', s), Pos('na', s), Pos('x', s));
  WriteLn(Pos('', s), Pos('banana', s), Pos('bananas', s))
end.
