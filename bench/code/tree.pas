{ A search tree whose nodes are records in an array: keys are counted, found again, and walked in order. }
program Tree;
const
  Last = 1000;
type
  Link = 0..Last;
  Node = record
    Key: Integer;
    Count: Word;
    Less, Greater: Link;
  end;
var
  Nodes: array [1..Last] of Node;
  Root, Used: Link;
  Seed: Integer;

function Random(Limit: Integer): Integer;
begin
  Seed := (Seed * 1309 + 13849) and 65535;
  Random := Seed mod Limit;
end;

function Made(Key: Integer): Link;
begin
  Inc(Used);
  Nodes[Used].Key := Key;
  Nodes[Used].Count := 1;
  Nodes[Used].Less := 0;
  Nodes[Used].Greater := 0;
  Made := Used;
end;

procedure Add(Key: Integer);
var
  At: Link;
begin
  if Root = 0 then
  begin
    Root := Made(Key);
    Exit;
  end;
  At := Root;
  while Nodes[At].Key <> Key do
    if Key < Nodes[At].Key then
    begin
      if Nodes[At].Less = 0 then
      begin
        Nodes[At].Less := Made(Key);
        Exit;
      end;
      At := Nodes[At].Less;
    end
    else
    begin
      if Nodes[At].Greater = 0 then
      begin
        Nodes[At].Greater := Made(Key);
        Exit;
      end;
      At := Nodes[At].Greater;
    end;
  Inc(Nodes[At].Count);
end;

function Depth(Key: Integer): Integer;
var
  At: Link;
begin
  Depth := 0;
  At := Root;
  while At <> 0 do
  begin
    Inc(Result);
    if Nodes[At].Key = Key then Exit;
    if Key < Nodes[At].Key then At := Nodes[At].Less else At := Nodes[At].Greater;
  end;
  Result := -Result;
end;

var
  Sum, Place: Integer;

procedure Note(At: Link);
begin
  Inc(Place);
  Sum := (Sum * 31 + Nodes[At].Key * Place + Nodes[At].Count) and 1048575;
end;

procedure Walk(At: Link);
begin
  if At = 0 then Exit;
  Walk(Nodes[At].Less);
  Note(At);
  Walk(Nodes[At].Greater);
end;

var
  k, Found, Missing: Integer;
begin
  Seed := 11;
  Root := 0;
  Used := 0;
  for k := 1 to 3000 do Add(Random(997));
  Found := 0;
  Missing := 0;
  for k := 0 to 1999 do
    if Depth(k) > 0 then Found := Found + Depth(k) else Missing := Missing - Depth(k);
  Sum := 0;
  Place := 0;
  Walk(Root);
  WriteLn(Used, ' keys, ', Found, ' ', Missing, ' ', Sum);
end.
