{ Under range checks a number that a parameter's type lacks is error 201, before the call. }
program ArgumentOutOfRange;
var
  n: Integer;

procedure Show(b: Byte);
begin
  WriteLn(b);
end;

begin
  n := 256;
  Show(n);
  {$R+}
  Show(n - 1);
  Show(n);
  WriteLn('not reached');
end.
