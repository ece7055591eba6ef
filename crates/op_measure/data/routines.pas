function Pos(const Sub, S: String): Integer;
var I, J: Integer;
begin
  Result := 0;
  if Length(Sub) = 0 then Exit;
  for I := 1 to Length(S) - Length(Sub) + 1 do begin
    J := 1;
    while (J <= Length(Sub)) and (S[I + J - 1] = Sub[J]) do J := J + 1;
    if J > Length(Sub) then begin Result := I; Exit; end;
  end;
end;
procedure Delete(var S: String; Index, Count: Integer);
begin
  if (Index < 1) or (Index > Length(S)) or (Count < 1) then Exit;
  if Count > Length(S) - Index + 1 then Count := Length(S) - Index + 1;
  S := Copy(S, 1, Index - 1) + Copy(S, Index + Count, Length(S));
end;
procedure Insert(const Source: String; var S: String; Index: Integer);
begin
  if Index < 1 then Index := 1;
  if Index > Length(S) + 1 then Index := Length(S) + 1;
  S := Copy(S, 1, Index - 1) + Source + Copy(S, Index, Length(S));
end;
function StringOfChar(C: Char; L: Integer): String;
var I: Integer;
begin
  if L < 0 then L := 0;
  SetLength(Result, L);
  for I := 1 to L do Result[I] := C;
end;
