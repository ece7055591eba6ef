{ Two variables refer to one instance, comparing looks at the instance }
type TA = class n: Integer; end;
var a, b, c: TA;
begin
  a := TA.Create;
  b := a;
  c := TA.Create;
  b.n := 5;
  WriteLn(a.n, a = b, a = c, a <> nil, c.n);
  a.Free;
  c.Free
end.
