{ Counts the ways to place eight queens. }
program Queens;
type
  Place = 1..8;
var
  Rows: array [Place] of Place;
  Columns: array [Place] of Boolean;
  Rising: array [2..16] of Boolean;
  Falling: array [-7..7] of Boolean;
  Found, Tried: Integer;

procedure Settle(x: Integer);
var
  y: Integer;
begin
  for y := 1 to 8 do
  begin
    Inc(Tried);
    if not (Columns[y] or Rising[x + y] or Falling[x - y]) then
    begin
      Rows[x] := y;
      if x = 8 then Inc(Found)
      else
      begin
        Columns[y] := True;
        Rising[x + y] := True;
        Falling[x - y] := True;
        Settle(x + 1);
        Columns[y] := False;
        Rising[x + y] := False;
        Falling[x - y] := False;
      end;
    end;
  end;
end;

begin
  Settle(1);
  WriteLn(Found, ' ways, ', Tried, ' tries');
end.
