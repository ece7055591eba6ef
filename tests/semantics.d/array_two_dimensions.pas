{ A static array with two dimensions: rows are arrays too }
type
  T = array[1..2] of Char;
var m: array[Boolean, 1..2] of Char; r: T; i: Integer; n: array[0..1] of T;
begin
  for i := 1 to 2 do begin
    m[False, i] := Chr(96 + i);
    m[True][i] := Chr(64 + i)
  end;
  n[0][1] := m[True, 2];
  r := n[0];
  r[2] := '!';
  n[1] := r;
  WriteLn(m[False, 1], m[True, 1], n[1, 1], n[1, 2], Length(m), High(n))
end.
