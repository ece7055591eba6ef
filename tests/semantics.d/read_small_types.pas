{ Numbers into Byte and Word keep their low bits, a subrange is checked }
{ input: b'300 -1 7 11' }
type T = 1..10;
var b: Byte; w: Word; r: T;
begin
  Read(b, w, r);
  WriteLn(b, ' ', w, ' ', r);
  Read(r);
  WriteLn('never')
end.
