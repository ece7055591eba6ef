{$mode objfpc}{$H+}
program hello;

begin
  WriteLn('Hello from opc.');
  WriteLn('This line was compiled to RISC-V and run.');
end.
