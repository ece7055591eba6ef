{ A status that wraps is -2147483648, whose low eight bits are 0. }
program HaltWraps;
var
  Most: Integer;
begin
  Most := MaxInt;
  WriteLn(Most + 1);
  Halt(Most + 1);
end.
