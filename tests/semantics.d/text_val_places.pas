{ Val stores into an element, a field and a Byte, whose low bits are kept }
type R = record n: Integer; end;
var a: array[0..1] of Integer; x: R; b: Byte; c: Word;
begin
  Val('12', a[1], x.n);
  WriteLn(a[1], ' ', x.n);
  Val('1x', x.n, a[0]);
  WriteLn(x.n, ' ', a[0]);
  Val('300', b, c);
  WriteLn(b, ' ', c)
end.
