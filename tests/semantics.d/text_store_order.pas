{ The right side of a store runs first, then the index, then the character goes in }
var s: String;
function I: Integer;
begin
  Write('i');
  s := s + 'd';
  I := 4
end;
function C: Char;
begin
  Write('c');
  s := s + 'x';
  C := 'Q'
end;
begin
  s := 'ab';
  s[I] := C;
  WriteLn(' ', s)
end.
