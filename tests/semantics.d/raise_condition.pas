{ An exception in the condition of a loop }
uses SysUtils;
var n: Integer;
function F(const s: String): Boolean;
begin
  Write(s, ' ');
  Result := 6 div (n - 2) < 10
end;
begin
  try
    while F('turn' + IntToStr(n)) do n := n + 1;
    WriteLn('never')
  except
    on EDivByZero do WriteLn('at ', n)
  end
end.
