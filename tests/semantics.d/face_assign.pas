{ A new instance takes the place of the old one }
type TA = class(TInterfacedObject) n: Integer; constructor Create(k: Integer); destructor Destroy; override; end;
constructor TA.Create(k: Integer); begin n := k end;
destructor TA.Destroy; begin WriteLn('gone ', n); inherited Destroy end;
var x: IUnknown;
begin
  x := TA.Create(1);
  WriteLn('first');
  x := TA.Create(2);
  WriteLn('second');
  x := nil;
  WriteLn('end')
end.
