{ An out argument is emptied before the routine begins, and its instance goes then }
type TA = class(TInterfacedObject) destructor Destroy; override; end;
var g: IUnknown;
destructor TA.Destroy; begin WriteLn('gone', g = nil); inherited Destroy end;
function F: Integer; begin WriteLn('argument'); F := 1 end;
procedure P(out x: IUnknown; n: Integer);
begin
  WriteLn('begin', x = nil);
  x := TA.Create
end;
begin
  g := TA.Create;
  P(g, F);
  WriteLn('end');
  g := nil
end.
