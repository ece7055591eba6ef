{ A text joined to itself, three times }
var s: String; i: Integer;
begin
  s := 'a';
  for i := 1 to 3 do begin
    s := s + s;
    WriteLn(s)
  end
end.
