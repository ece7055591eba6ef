{ A destructor that clears another variable: that instance goes within it }
type TA = class(TInterfacedObject) n: Integer; constructor Create(k: Integer); destructor Destroy; override; end;
var x, y: IUnknown;
constructor TA.Create(k: Integer); begin n := k end;
destructor TA.Destroy;
begin
  WriteLn('in ', n);
  if n = 1 then y := nil;
  WriteLn('out ', n);
  inherited Destroy
end;
begin
  x := TA.Create(1);
  y := TA.Create(2);
  x := nil;
  WriteLn('end', y = nil)
end.
