{ The parts of a sum run from left to right }
function F(n: Integer): String;
begin
  Write(n, ' ');
  Str(n, Result)
end;
begin
  WriteLn('a' + F(1) + F(2) + (F(3) + F(4)))
end.
