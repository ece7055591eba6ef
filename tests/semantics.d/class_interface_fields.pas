{ The ancestor's fields end before the descendant's, each in order of declaration }
type
  TI = class(TInterfacedObject) n: Integer; constructor Create(k: Integer); destructor Destroy; override; end;
  TA = class x, y: IUnknown; end;
  TB = class(TA) z: IUnknown; destructor Destroy; override; end;
constructor TI.Create(k: Integer); begin n := k end;
destructor TI.Destroy; begin WriteLn('gone ', n); inherited Destroy end;
destructor TB.Destroy; begin WriteLn('B'); inherited Destroy; WriteLn('B done') end;
var b: TB;
begin
  b := TB.Create;
  b.z := TI.Create(3);
  b.y := TI.Create(2);
  b.x := TI.Create(1);
  b.Free;
  WriteLn('end')
end.
