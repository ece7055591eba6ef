{ A use of nil ends the program though a handler stands around it }
uses SysUtils;
type TA = class n: Integer; end;
var a: TA;
begin
  try
    WriteLn('before');
    a.n := 1
  except
    WriteLn('never')
  end
end.
