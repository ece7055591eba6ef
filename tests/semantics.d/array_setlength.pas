{ SetLength makes longer with zeros, shorter, and none }
var a: array of Integer; i: Integer;
begin
  WriteLn(Length(a), High(a));
  SetLength(a, 3);
  for i := 0 to High(a) do a[i] := i * i;
  SetLength(a, 5);
  for i := 0 to 4 do Write(a[i], ' ');
  SetLength(a, 2);
  WriteLn(Length(a), High(a), a[1], Low(a));
  SetLength(a, 0);
  WriteLn(a = nil, Length(a))
end.
