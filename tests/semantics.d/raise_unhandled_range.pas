{ An error that is raised and that nobody handles }
uses SysUtils;
var s: String; n: Integer;
begin
  n := 3;
  s := 'ab';
  try
    WriteLn(s[n])
  finally
    WriteLn('finally')
  end
end.
