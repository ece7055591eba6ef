{ not as Free Pascal: it checks under R alone. An element above 31 in a constructor is error 201, also as the end of an empty range. }
program ConstructorOutOfRange;
var
  k: Integer;
begin
  k := 31;
  WriteLn(31 in [k]);
  WriteLn(31 in [k..30]);
  k := 32;
  WriteLn(5 in [k..30]);
end.
