{ Destructors run from the instance's class up, through any variable }
type
  TA = class destructor Destroy; override; end;
  TB = class(TA) s: String; destructor Destroy; override; end;
destructor TA.Destroy; begin WriteLn('A'); inherited Destroy end;
destructor TB.Destroy;
begin
  WriteLn('B ', s);
  inherited Destroy;
  WriteLn('B done ', s)
end;
var a: TObject; b: TB;
begin
  b := TB.Create;
  b.s := 'text';
  b.s := b.s + '!';
  a := b;
  a.Free;
  WriteLn('end')
end.
