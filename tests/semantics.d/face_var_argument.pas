{ An interface given as var: the routine's store lets the old instance go }
type TA = class(TInterfacedObject) n: Integer; constructor Create(k: Integer); destructor Destroy; override; end;
constructor TA.Create(k: Integer); begin n := k end;
destructor TA.Destroy; begin WriteLn('gone ', n); inherited Destroy end;
procedure P(var x: IUnknown; y: IUnknown);
begin
  x := y;
  WriteLn('stored')
end;
var a: IUnknown;
begin
  a := TA.Create(1);
  P(a, TA.Create(2));
  WriteLn('back');
  a := nil
end.
