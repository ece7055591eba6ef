{ Break and Continue out of protected parts run the finally parts }
uses SysUtils;
var i: Integer;
begin
  for i := 1 to 4 do begin
    try
      if i = 1 then Continue;
      if i = 3 then Break;
      Write('body', i, ' ')
    finally
      Write('fin', i, ' ')
    end
  end;
  WriteLn(i);
  repeat
    try raise Exception.Create('x') except Break end
  until False;
  WriteLn('end')
end.
