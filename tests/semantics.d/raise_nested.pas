{ A try within a handler: the outer exception is still there afterwards }
uses SysUtils;
begin
  try
    raise Exception.Create('outer')
  except
    on E: Exception do begin
      try
        raise EConvertError.Create('inner')
      except
        on F: EConvertError do WriteLn(F.Message, ' in ', E.Message)
      end;
      WriteLn(E.Message)
    end
  end
end.
