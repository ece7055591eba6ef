{ A machine that goes from state to state over instructions, which are records: it finds the longest walk of n to 1 by halves and 3n + 1. }
program States;
type
  Action = (Load, Copy, Add, Halve, Test, Less, Jump, Stop);
  Instruction = record
    What: Action;
    Into: 0..7;
    From: Integer;
    Goal: Byte;
  end;
var
  Code: array [0..31] of Instruction;
  Count: Byte;
  Registers: array [0..7] of Integer;
  Steps: Integer;

procedure Put(What: Action; Into, From, Goal: Integer);
begin
  Code[Count].What := What;
  Code[Count].Into := Into;
  Code[Count].From := From;
  Code[Count].Goal := Goal;
  Inc(Count);
end;

procedure Run;
var
  At: Byte;
  Goes: Boolean;
begin
  At := 0;
  Goes := True;
  while Goes do
  begin
    Inc(Steps);
    case Code[At].What of
      Load: Registers[Code[At].Into] := Code[At].From;
      Copy: Registers[Code[At].Into] := Registers[Code[At].From];
      Add: Registers[Code[At].Into] := Registers[Code[At].Into] + Registers[Code[At].From];
      Halve: Registers[Code[At].Into] := Registers[Code[At].Into] shr 1;
      Test: if Odd(Registers[Code[At].Into]) then At := Code[At].Goal - 1;
      Less: if Registers[Code[At].Into] < Registers[Code[At].From] then At := Code[At].Goal - 1;
      Jump: At := Code[At].Goal - 1;
      Stop: Goes := False;
    end;
    Inc(At);
  end;
end;

begin
  Count := 0;
  { 0: the number, 1: the walk, 2: its length, 3: one, 4: the greatest length, 5: its number, 6: the end }
  Put(Load, 0, 1, 0);
  Put(Load, 3, 1, 0);
  Put(Load, 4, 0, 0);
  Put(Load, 6, 400, 0);
  Put(Copy, 1, 0, 0);
  Put(Load, 2, 0, 0);
  Put(Less, 3, 1, 8);
  Put(Jump, 0, 0, 15);
  Put(Add, 2, 3, 0);
  Put(Test, 1, 0, 12);
  Put(Halve, 1, 0, 0);
  Put(Jump, 0, 0, 6);
  Put(Copy, 7, 1, 0);
  Put(Add, 1, 7, 0);
  Put(Jump, 0, 0, 21);
  Put(Less, 4, 2, 17);
  Put(Jump, 0, 0, 19);
  Put(Copy, 4, 2, 0);
  Put(Copy, 5, 0, 0);
  Put(Add, 0, 3, 0);
  Put(Jump, 0, 0, 24);
  Put(Add, 1, 7, 0);
  Put(Add, 1, 3, 0);
  Put(Jump, 0, 0, 6);
  Put(Less, 0, 6, 4);
  Put(Stop, 0, 0, 0);
  Steps := 0;
  Run;
  WriteLn(Registers[5], ' takes ', Registers[4], ', after ', Steps, ' steps');
end.
