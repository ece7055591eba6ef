{ A constructor stores Self and lets go of it: nothing is destroyed, the instance lives on }
type TA = class(TInterfacedObject) n: Integer; constructor Create; destructor Destroy; override; end;
var g: IUnknown; o: TA;
constructor TA.Create;
begin
  g := Self;
  g := nil;
  n := 4
end;
destructor TA.Destroy; begin WriteLn('gone'); inherited Destroy end;
begin
  o := TA.Create;
  WriteLn(o.n);
  g := o;
  g := nil;
  WriteLn('end')
end.
