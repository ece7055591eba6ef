program p; begin WriteLn(1); end.
