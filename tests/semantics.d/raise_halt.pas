{ Halt in a handler and through a finally part: neither runs on }
uses SysUtils;
begin
  try
    try
      raise Exception.Create('x')
    except
      on E: Exception do begin
        WriteLn(E.Message);
        Halt(5)
      end
    end
  finally
    WriteLn('never')
  end
end.
