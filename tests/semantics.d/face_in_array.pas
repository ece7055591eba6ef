{ Interfaces in an array go one by one, in order }
type TA = class(TInterfacedObject) n: Integer; constructor Create(k: Integer); destructor Destroy; override; end;
constructor TA.Create(k: Integer); begin n := k end;
destructor TA.Destroy; begin Write('-', n, ' '); inherited Destroy end;
var a: array of IUnknown; i: Integer;
begin
  SetLength(a, 4);
  for i := 0 to 3 do a[i] := TA.Create(i);
  SetLength(a, 3);
  WriteLn('shorter');
  a[1] := a[0];
  WriteLn('replaced');
  a := nil;
  WriteLn('end')
end.
