{ Two recursions with three parameters: Takeuchi's function, and the moves of a tower of discs. }
program Recursion;
type
  Peg = 1..3;
var
  Calls, Moves: Integer;
  Discs: array [Peg] of Integer;

function Tak(x, y, z: Integer): Integer;
begin
  Inc(Calls);
  if x <= y then Tak := z
  else Tak := Tak(Tak(x - 1, y, z), Tak(y - 1, z, x), Tak(z - 1, x, y));
end;

procedure Move(Count: Integer; Source, Target: Peg);
var
  Other: Peg;
begin
  if Count = 0 then Exit;
  Other := 6 - Source - Target;
  Move(Count - 1, Source, Other);
  Dec(Discs[Source]);
  Inc(Discs[Target]);
  Inc(Moves);
  Move(Count - 1, Other, Target);
end;

begin
  Calls := 0;
  WriteLn(Tak(15, 10, 5), ' after ', Calls, ' calls');
  Moves := 0;
  Discs[1] := 13;
  Discs[2] := 0;
  Discs[3] := 0;
  Move(13, 1, 3);
  WriteLn(Moves, ' moves: ', Discs[1], ' ', Discs[2], ' ', Discs[3]);
end.
