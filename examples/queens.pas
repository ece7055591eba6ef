{ Places eight queens on a board so that none takes another one. }
program Queens;
type
  Place = 1..8;
var
  Rows: array [Place] of Place;
  Taken: set of Place;
  Rising, Falling: array [-7..16] of Boolean;
  Found: Integer;

procedure Show;
var
  x, y: Place;
begin
  for y := 1 to 8 do
  begin
    for x := 1 to 8 do
      if Rows[x] = y then Write(' Q') else Write(' .');
    WriteLn;
  end;
end;

procedure Settle(x: Integer);
var
  y: Place;
begin
  if x > 8 then
  begin
    Inc(Found);
    if Found = 1 then Show;
    Exit;
  end;
  for y := 1 to 8 do
    if not (y in Taken) and not Rising[x + y] and not Falling[x - y] then
    begin
      Rows[x] := y;
      Include(Taken, y);
      Rising[x + y] := True;
      Falling[x - y] := True;
      Settle(x + 1);
      Exclude(Taken, y);
      Rising[x + y] := False;
      Falling[x - y] := False;
    end;
end;

begin
  Settle(1);
  WriteLn(Found, ' ways');
end.
