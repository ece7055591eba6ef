{ A store to a field of nil: the right side runs first }
type TA = class s: String; end;
var a: TA;
function F: String; begin WriteLn('right'); F := 'x' end;
begin
  a.s := F;
  WriteLn('never')
end.
