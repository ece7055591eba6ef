{ A static array of interfaces is copied, and the copy holds its instances too }
type
  TA = class(TInterfacedObject) n: Integer; constructor Create(k: Integer); destructor Destroy; override; end;
  T = array[1..2] of IUnknown;
constructor TA.Create(k: Integer); begin n := k end;
destructor TA.Destroy; begin WriteLn('gone ', n); inherited Destroy end;
var a, b, e: T;
begin
  a[1] := TA.Create(1);
  a[2] := TA.Create(2);
  b := a;
  a := e;
  WriteLn('copied', b[1] <> nil);
  b := e;
  WriteLn('end')
end.
