{ A chain of three goes from its head on, when the head's only holder lets go }
type
  IN_ = interface end;
  TN = class(TInterfacedObject, IN_) n: Integer; next: IN_; destructor Destroy; override; end;
destructor TN.Destroy; begin WriteLn('gone ', n); inherited Destroy end;
var head: IN_; o: TN; i: Integer;
begin
  for i := 1 to 3 do begin
    o := TN.Create;
    o.n := i;
    o.next := head;
    head := o
  end;
  o := nil;
  head := nil;
  WriteLn('end')
end.
