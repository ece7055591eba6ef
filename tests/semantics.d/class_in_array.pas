{ Instances in an array: nothing holds them, a loop frees them }
type TA = class n: Integer; destructor Destroy; override; end;
destructor TA.Destroy; begin Write('-', n); inherited Destroy end;
var a: array of TA; x: TA; i: Integer;
begin
  SetLength(a, 3);
  for i := 0 to 2 do begin
    a[i] := TA.Create;
    a[i].n := i * i
  end;
  x := a[2];
  SetLength(a, 2);
  for i := 0 to High(a) do a[i].Free;
  a := nil;
  WriteLn(' ', x.n);
  x.Free
end.
