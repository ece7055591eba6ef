{ Where no clause fits the exception goes on to the next try }
uses SysUtils;
type EA = class(Exception) end; EB = class(Exception) end;
begin
  try
    try
      raise EA.Create('a');
      WriteLn('never')
    except
      on E: EB do WriteLn('never')
    end;
    WriteLn('never')
  except
    on E: EB do WriteLn('never');
    on E: EA do WriteLn('outer ', E.Message)
  end;
  WriteLn('end')
end.
