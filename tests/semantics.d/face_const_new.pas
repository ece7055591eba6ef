{ A new instance as a const argument: a temporary holds it for the call }
type TA = class(TInterfacedObject) destructor Destroy; override; end;
destructor TA.Destroy; begin WriteLn('gone'); inherited Destroy end;
procedure P(const x: IUnknown);
begin
  WriteLn('in', x <> nil)
end;
begin
  P(TA.Create);
  WriteLn('end')
end.
