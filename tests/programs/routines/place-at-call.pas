{ The place of a var argument is found at the call: what its index is afterwards counts no more. }
program PlaceAtCall;
var
  a: array [1..3] of Integer;
  i: Integer;

procedure Set100(var x: Integer);
begin
  i := 3;
  x := 100;
  i := 1;
  x := x + i;
end;

begin
  i := 2;
  Set100(a[i]);
  WriteLn(a[1], ' ', a[2], ' ', a[3]);
  Set100(i);
  WriteLn(i);
end.
