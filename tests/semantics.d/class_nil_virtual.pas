{ A virtual method of nil: its arguments run first }
type TA = class procedure P(n: Integer); virtual; end;
procedure TA.P(n: Integer); begin WriteLn('never') end;
function F: Integer; begin WriteLn('argument'); F := 1 end;
var a: TA;
begin
  a.P(F)
end.
