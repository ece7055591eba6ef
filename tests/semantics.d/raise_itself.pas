{ A handler that raises its own instance: it is under way again and not freed }
uses SysUtils;
type EA = class(Exception) destructor Destroy; override; end;
destructor EA.Destroy; begin WriteLn('freed'); inherited Destroy end;
begin
  try
    try
      raise EA.Create('a')
    except
      on E: EA do raise E
    end
  except
    on E: EA do WriteLn('caught ', E.Message)
  end;
  WriteLn('end')
end.
