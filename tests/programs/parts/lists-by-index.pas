{ A sorted list whose links are indices. }
program ListsByIndex;
type
  Link = 0..20;
  Node = record
    Value: Integer;
    Next: Link;
  end;
var
  Nodes: array [1..20] of Node;
  First, Used: Link;

procedure Settle(Value: Integer; var At: Link);
var
  Fresh: Link;
begin
  if (At <> 0) and (Nodes[At].Value < Value) then
    Settle(Value, Nodes[At].Next)
  else
  begin
    Inc(Used);
    Fresh := Used;
    Nodes[Fresh].Value := Value;
    Nodes[Fresh].Next := At;
    At := Fresh;
  end;
end;

procedure Reverse;
var
  At, Done, Rest: Link;
begin
  At := First;
  Done := 0;
  while At <> 0 do
  begin
    Rest := Nodes[At].Next;
    Nodes[At].Next := Done;
    Done := At;
    At := Rest;
  end;
  First := Done;
end;

procedure Show;
var
  At: Link;
begin
  At := First;
  while At <> 0 do
  begin
    Write(Nodes[At].Value, ' ');
    At := Nodes[At].Next;
  end;
  WriteLn;
end;

var
  k: Integer;
begin
  for k := 1 to 12 do Settle(k * 7 mod 13, First);
  Show;
  Reverse;
  Show;
end.
