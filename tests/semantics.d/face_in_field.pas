{ An instance that holds another: the outer one's destructor runs first }
type TA = class(TInterfacedObject)
    n: Integer; next: IUnknown;
    constructor Create(k: Integer; const x: IUnknown);
    destructor Destroy; override;
  end;
constructor TA.Create(k: Integer; const x: IUnknown); begin n := k; next := x end;
destructor TA.Destroy; begin WriteLn('gone ', n); inherited Destroy; WriteLn('done ', n) end;
var x, y: IUnknown;
begin
  x := TA.Create(1, nil);
  y := TA.Create(2, x);
  x := TA.Create(3, y);
  y := nil;
  WriteLn('drop');
  x := nil;
  WriteLn('end')
end.
