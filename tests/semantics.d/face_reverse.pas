{ Temporaries of one statement go in reverse order of their making }
type TA = class(TInterfacedObject) n: Integer; constructor Create(k: Integer); destructor Destroy; override; end;
constructor TA.Create(k: Integer); begin n := k end;
destructor TA.Destroy; begin WriteLn('gone ', n); inherited Destroy end;
function Make(k: Integer): IUnknown; begin Result := TA.Create(k) end;
begin
  WriteLn(Make(1) = Make(2));
  WriteLn('end')
end.
