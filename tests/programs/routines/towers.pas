{ The towers of Hanoi, on three stacks of disks. }
program Towers;
type
  Stack = record
    Height: Integer;
    Disks: array [1..10] of Byte;
  end;
var
  Stacks: array ['a'..'c'] of Stack;
  Moves, k: Integer;

procedure Push(var s: Stack; Disk: Byte);
begin
  Inc(s.Height);
  s.Disks[s.Height] := Disk;
end;

function Pop(var s: Stack): Byte;
begin
  Pop := s.Disks[s.Height];
  Dec(s.Height);
end;

procedure Move(Count: Integer; a, b, c: Char);
begin
  if Count = 0 then Exit;
  Move(Count - 1, a, c, b);
  Push(Stacks[c], Pop(Stacks[a]));
  Inc(Moves);
  if Moves <= 3 then WriteLn(a, ' to ', c, ': ', Stacks[c].Disks[Stacks[c].Height]);
  Move(Count - 1, b, a, c);
end;

begin
  for k := 8 downto 1 do Push(Stacks['a'], k);
  Move(8, 'a', 'b', 'c');
  WriteLn(Moves, ' moves');
  for k := 1 to Stacks['c'].Height do Write(Stacks['c'].Disks[k], ' ');
  WriteLn(Stacks['a'].Height, Stacks['b'].Height);
end.
