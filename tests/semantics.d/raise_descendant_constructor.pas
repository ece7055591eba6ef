{ A descendant's constructor fails after the ancestor's has run, in an argument of another call }
uses SysUtils;
type
  TA = class constructor Create; destructor Destroy; override; end;
  TB = class(TA) s: String; constructor Create; destructor Destroy; override; end;
constructor TA.Create; begin WriteLn('A made') end;
destructor TA.Destroy; begin WriteLn('A gone'); inherited Destroy end;
constructor TB.Create; begin inherited Create; s := 'set'; raise Exception.Create('no') end;
destructor TB.Destroy; begin WriteLn('B gone ', s); inherited Destroy end;
procedure P(a: TA); begin WriteLn('never') end;
begin
  try
    P(TB.Create)
  except
    on E: Exception do WriteLn(E.Message)
  end
end.
