{ An exception raised in a handler: the handler's own is freed, the new one goes on }
uses SysUtils;
type EA = class(Exception) destructor Destroy; override; end;
destructor EA.Destroy; begin WriteLn('freed ', Message); inherited Destroy end;
begin
  try
    try
      raise EA.Create('first')
    except
      on E: EA do raise EA.Create('second');
    end
  except
    on E: EA do WriteLn('caught ', E.Message)
  end;
  WriteLn('end')
end.
