{$mode objfpc}{$H+}
program p; begin WriteLn('Hello'); end.
