{ An exception of a finally part replaces the one under way, which is freed }
uses SysUtils;
type EA = class(Exception) destructor Destroy; override; end;
destructor EA.Destroy; begin WriteLn('freed ', Message); inherited Destroy end;
begin
  try
    try
      raise EA.Create('first')
    finally
      WriteLn('finally');
      raise EA.Create('second')
    end
  except
    on E: EA do WriteLn('caught ', E.Message)
  end;
  WriteLn('end')
end.
