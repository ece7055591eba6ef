{ An unhandled exception leaves two calls: their finally parts run, the locals go }
uses SysUtils;
type eown = class(Exception) end;
procedure P(n: Integer);
var s: String;
begin
  s := 'level ' + IntToStr(n);
  try
    if n = 2 then raise eown.Create(s);
    P(n + 1)
  finally
    WriteLn(s)
  end
end;
begin
  P(1)
end.
