{ An exception in one argument of several: the later ones do not run }
uses SysUtils;
var z: Integer;
function F(const s: String; n: Integer): String;
begin
  Write(s, ' ');
  Result := s + IntToStr(6 div n)
end;
begin
  try
    WriteLn(F('a', 1) + F('b', z) + F('c', 3))
  except
    on E: EIntError do WriteLn('caught')
  end
end.
