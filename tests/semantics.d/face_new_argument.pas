{ A new instance as a value argument goes with the call }
type TA = class(TInterfacedObject) destructor Destroy; override; end;
destructor TA.Destroy; begin WriteLn('gone'); inherited Destroy end;
procedure P(x: IUnknown);
begin
  WriteLn('in', x <> nil)
end;
begin
  P(TA.Create);
  WriteLn('end')
end.
