{ The remainder by zero is error 200. }
program ModuloByZero;
var
  Zero: Byte;
begin
  Zero := 255;
  WriteLn(100 mod Zero);
  Inc(Zero);
  WriteLn(100 mod Zero);
  WriteLn('not reached');
end.
