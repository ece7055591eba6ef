{ An interpreter of a small stack machine that counts down and adds up. }
program Machine;
type
  Code = (Push, Add, Subtract, Store, Load, JumpIfZero, Jump, Print, Stop);
  Instruction = record
    Does: Code;
    Operand: Integer;
  end;
const
  Text: array [0..16] of Instruction = (
    (Does: Push; Operand: 10), (Does: Store; Operand: 0),
    (Does: Load; Operand: 0), (Does: JumpIfZero; Operand: 14),
    (Does: Load; Operand: 1), (Does: Load; Operand: 0), (Does: Add; Operand: 0), (Does: Store; Operand: 1),
    (Does: Load; Operand: 0), (Does: Push; Operand: 1), (Does: Subtract; Operand: 0), (Does: Store; Operand: 0),
    (Does: Load; Operand: 1), (Does: Jump; Operand: 2),
    (Does: Load; Operand: 1), (Does: Print; Operand: 0), (Does: Stop; Operand: 0));
var
  Stack: array [1..32] of Integer;
  Cells: array [0..3] of Integer;
  Top, Counter, Steps: Integer;

function Pop: Integer;
begin
  Pop := Stack[Top];
  Dec(Top);
end;

procedure Put(n: Integer);
begin
  Inc(Top);
  Stack[Top] := n;
end;

procedure Step(const i: Instruction);
var
  n: Integer;
begin
  Inc(Counter);
  case i.Does of
    Push: Put(i.Operand);
    Add: begin n := Pop; Put(Pop + n); end;
    Subtract: begin n := Pop; Put(Pop - n); end;
    Store: Cells[i.Operand] := Pop;
    Load: Put(Cells[i.Operand]);
    JumpIfZero: if Pop = 0 then Counter := i.Operand;
    Jump: Counter := i.Operand;
    Print: WriteLn(Pop);
  end;
end;

begin
  Counter := 0;
  while Text[Counter].Does <> Stop do
  begin
    Step(Text[Counter]);
    Inc(Steps);
  end;
  WriteLn(Steps, ' steps, ', Top, ' left, cells ', Cells[0], ' ', Cells[1]);
end.
