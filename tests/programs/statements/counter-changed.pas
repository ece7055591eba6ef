{ not as Free Pascal: there a counter that is changed counts on from there. Each turn stores the next value, counted from the first bound. }
program CounterChanged;
var
  k, Turns: Integer;

procedure Change;
begin
  k := k * 100;
end;

begin
  Turns := 0;
  for k := 1 to 4 do
  begin
    Write(k, ' ');
    Change;
    Write(k, ' ');
    Inc(Turns);
  end;
  WriteLn(Turns);
  WriteLn(k);
end.
