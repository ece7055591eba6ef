{ A loop that handles exceptions turn by turn }
uses SysUtils;
var i: Integer; s: String;
begin
  for i := -1 to 1 do
    try
      s := s + IntToStr(4 div i) + ' '
    except
      on E: EDivByZero do s := s + 'zero '
    end;
  WriteLn(s)
end.
