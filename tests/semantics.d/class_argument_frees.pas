{ An argument that frees the receiver: the receiver is looked at after it }
type TA = class procedure P(n: Integer); end;
var a: TA;
procedure TA.P(n: Integer); begin WriteLn('never') end;
function F: Integer;
begin
  WriteLn('argument');
  a.Free;
  F := 1
end;
begin
  a := TA.Create;
  a.P(F)
end.
