{ All variables of the program begin as zero. }
program BeginsAsZero;
type
  Light = (Red, Amber, Green);
  Mixed = record
    a: Byte;
    b: array [1..3] of Integer;
    c: Light;
    d: Boolean;
    e: set of Light;
  end;
var
  n: Integer;
  c: Char;
  m: array [0..1] of Mixed;
  d: 5..9;
begin
  WriteLn(n, ' ', Ord(c), ' ', m[1].a, ' ', m[0].b[3], ' ', m[1].c = Red, ' ', m[1].d, ' ', m[0].e = [], ' ', d);
end.
