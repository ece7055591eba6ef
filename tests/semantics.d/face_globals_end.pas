{ At the end the globals go in order of declaration; a destructor sees those that are still there }
type TA = class(TInterfacedObject) n: Integer; constructor Create(k: Integer); destructor Destroy; override; end;
var s: String; x, y: IUnknown; t: String;
constructor TA.Create(k: Integer); begin n := k end;
destructor TA.Destroy;
begin
  WriteLn('gone ', n, x = nil, y = nil, Length(s), Length(t));
  inherited Destroy
end;
begin
  s := 'ab';
  t := 'abc';
  y := TA.Create(2);
  x := TA.Create(1);
  WriteLn('end')
end.
