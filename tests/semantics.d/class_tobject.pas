{ TObject itself }
var a, b: TObject;
begin
  a := TObject.Create;
  b := a;
  WriteLn(a is TObject, b = a, Assigned(b));
  b.Free
end.
