{ UpCase changes small letters alone }
var s: String; i: Integer;
begin
  s := 'aZ1z{';
  for i := 1 to Length(s) do s[i] := UpCase(s[i]);
  WriteLn(s)
end.
