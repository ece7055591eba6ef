{ for in over an array of interfaces: the loop's variable holds the last one }
type TA = class(TInterfacedObject) n: Integer; constructor Create(k: Integer); destructor Destroy; override; end;
  T = array of IUnknown;
constructor TA.Create(k: Integer); begin n := k end;
destructor TA.Destroy; begin WriteLn('gone ', n); inherited Destroy end;
var a: T; x: IUnknown;
begin
  SetLength(a, 2);
  a[0] := TA.Create(1);
  a[1] := TA.Create(2);
  for x in a do WriteLn(x <> nil);
  a := nil;
  WriteLn('cleared');
  x := nil
end.
