{ A routine's locals go in order of declaration, after its parameters }
type TA = class(TInterfacedObject) n: Integer; constructor Create(k: Integer); destructor Destroy; override; end;
constructor TA.Create(k: Integer); begin n := k end;
destructor TA.Destroy; begin WriteLn('gone ', n); inherited Destroy end;
procedure P(x, y: IUnknown);
var a, b: IUnknown;
begin
  x := TA.Create(1);
  y := TA.Create(2);
  b := TA.Create(4);
  a := TA.Create(3);
  WriteLn('leave')
end;
begin
  P(nil, nil);
  WriteLn('end')
end.
