{ The right side makes the array longer before the place is looked at }
var a: array of Integer;
function F: Integer;
begin
  SetLength(a, Length(a) + 1);
  F := Length(a)
end;
begin
  a[0] := F;
  a[F - 1] := 5;
  WriteLn(Length(a), a[0], a[1])
end.
