{ An exception is an instance like others: made earlier, raised later, changed in between }
uses SysUtils;
type EA = class(Exception) n: Integer; end;
var e: EA;
procedure P; begin raise e end;
begin
  e := EA.Create('first');
  e.n := 4;
  e.Message := e.Message + '!';
  try
    P
  except
    on x: EA do WriteLn(x.Message, x.n, x = e)
  end
end.
