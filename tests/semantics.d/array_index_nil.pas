{ An element of nil }
var a: array of Integer; i: Integer;
begin
  WriteLn(Length(a), i);
  a[i] := 1;
  WriteLn('never')
end.
