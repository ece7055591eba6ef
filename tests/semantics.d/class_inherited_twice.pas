{ A destructor called with inherited runs as a method, so it may run twice }
type
  TA = class destructor Destroy; override; end;
  TB = class(TA) destructor Destroy; override; end;
destructor TA.Destroy; begin WriteLn('A'); inherited Destroy end;
destructor TB.Destroy;
begin
  WriteLn('B');
  inherited Destroy;
  inherited;
end;
var a: TA;
begin
  a := TB.Create;
  a.Free;
  WriteLn('end')
end.
