{$H+} program Switches;
var
  A, B: Integer;
begin
  A := B + 1; {$Q+}
  A := B + 1;
  A := {$R+} B * {$Q-} 2;
  if A = B then {$R-}{$H-} B := (A)
end.
