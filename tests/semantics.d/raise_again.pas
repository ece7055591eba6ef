{ raise without an operand raises the handler's exception again }
uses SysUtils;
type EA = class(Exception) destructor Destroy; override; end;
destructor EA.Destroy; begin WriteLn('freed'); inherited Destroy end;
begin
  try
    try
      raise EA.Create('a')
    except
      on E: EA do begin
        E.Message := E.Message + 'b';
        WriteLn('inner');
        raise
      end
    end
  except
    on E: Exception do WriteLn('outer ', E.Message)
  end;
  WriteLn('end')
end.
