{ raise of nil is an error of its own }
uses SysUtils;
var e: Exception;
begin
  WriteLn('before');
  raise e
end.
