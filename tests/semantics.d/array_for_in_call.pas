{ for in over a call's result: the call runs once; Break and Continue in it }
type T = array of String;
function F: T;
begin
  Write('F ');
  SetLength(Result, 3);
  Result[0] := 'a';
  Result[1] := Result[0] + 'b';
  Result[2] := 'c'
end;
var s: String;
begin
  for s in F do begin
    if s = 'a' then Continue;
    WriteLn(s);
    Break
  end;
  WriteLn(s)
end.
