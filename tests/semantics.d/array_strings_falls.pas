{ A global array of arrays of texts that is full when the program ends }
var m: array[0..1] of array of String; i: Integer;
begin
  for i := 0 to 1 do begin
    SetLength(m[i], 2);
    m[i][0] := 'a';
    m[i][1] := m[i][0] + 'b'
  end;
  m[1] := m[0];
  WriteLn(m[1][1])
end.
