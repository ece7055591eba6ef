{ Destroy of an instance, without inherited, while its destructor runs }
type TA = class n: Integer; destructor Destroy; override; end;
destructor TA.Destroy;
begin
  n := n + 1;
  WriteLn('in ', n);
  if n < 3 then Destroy;
  WriteLn('never')
end;
var a: TA;
begin
  a := TA.Create;
  a.Destroy
end.
