{ Halt in a routine whose local holds an instance: that one stays, the global's one goes }
type TA = class(TInterfacedObject) n: Integer; constructor Create(k: Integer); destructor Destroy; override; end;
constructor TA.Create(k: Integer); begin n := k end;
destructor TA.Destroy; begin WriteLn('gone ', n); inherited Destroy end;
var g: IUnknown;
procedure P;
var x: IUnknown;
begin
  x := TA.Create(2);
  Halt(6)
end;
begin
  g := TA.Create(1);
  P
end.
