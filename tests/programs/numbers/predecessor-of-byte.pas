{ not as Free Pascal: there it is 255. Pred of the Byte 0 is error 201: it is checked against the operand's type. }
program PredecessorOfByte;
var
  Small: Byte;
begin
  Small := 1;
  WriteLn(Pred(Small));
  Small := Pred(Small);
  WriteLn(Pred(Small));
end.
