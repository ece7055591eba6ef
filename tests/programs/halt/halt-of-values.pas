{ The status may be of each integer type, and comes from a call: its low eight bits count. }
program HaltOfValues;
type
  Small = -3..3;
const
  Least: ShortInt = -128;
var
  s: Small;

function Chosen(n: Integer): Small;
begin
  WriteLn('chosen ', n);
  if n = 0 then Halt(Least + 1);
  Chosen := n - 4;
end;

begin
  s := Chosen(3);
  if s > 0 then Halt(s);
  Halt(Chosen(s + 1));
  WriteLn('never');
end.
