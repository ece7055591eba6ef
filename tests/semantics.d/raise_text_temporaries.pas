{ Texts half made when an exception comes; the variable keeps its old value }
uses SysUtils;
var s, t: String;
function F(n: Integer): String;
begin
  Result := t + 'f';
  if n = 2 then raise Exception.Create('at ' + Result)
end;
begin
  t := 'x';
  s := t + '!';
  try
    s := F(1) + F(2)
  except
    on E: Exception do WriteLn(E.Message)
  end;
  WriteLn(s)
end.
