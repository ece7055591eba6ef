{ A method of a nil interface: its argument runs first }
type IA = interface procedure P(n: Integer); end;
var x: IA;
function F: Integer; begin WriteLn('argument'); F := 1 end;
begin
  x.P(F);
  WriteLn('never')
end.
