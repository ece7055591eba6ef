{ Continue out of a handler, and raise again by its else part }
uses SysUtils;
type EA = class(Exception) end;
var i: Integer;
begin
  try
    for i := 1 to 3 do
      try
        if i = 1 then raise EA.Create('one');
        if i = 2 then raise Exception.Create('two');
        WriteLn('never')
      except
        on EA do begin WriteLn('EA'); Continue end
        else raise
      end
  except
    on E: Exception do WriteLn(E.Message, i)
  end
end.
