{ A static method of a dead instance: its arguments run, its body does not }
type TA = class procedure P(n: Integer); end;
procedure TA.P(n: Integer); begin WriteLn('never') end;
function F: Integer; begin WriteLn('argument'); F := 1 end;
var a: TA;
begin
  a := TA.Create;
  a.Free;
  a.P(F)
end.
