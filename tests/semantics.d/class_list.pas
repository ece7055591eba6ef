{ A list of instances that free the rest after them }
type TN = class
    n: Integer; next: TN;
    constructor Create(x: Integer; y: TN);
    destructor Destroy; override;
  end;
constructor TN.Create(x: Integer; y: TN); begin n := x; next := y end;
destructor TN.Destroy;
begin
  WriteLn('free ', n);
  next.Free;
  inherited Destroy
end;
var l: TN;
begin
  l := TN.Create(2, TN.Create(1, nil));
  l := TN.Create(3, l);
  WriteLn(l.next.next.n);
  l.Free
end.
