{ In its own body a function's name with a selector on the left of an assignment is a part of its result. }
program ResultByParts;
type
  Point = record
    X, Y: Integer;
  end;
  Row = array [0..3] of Integer;
  Shape = record
    Corner: Point;
    Sides: Row;
  end;

function Sum(const a, b: Point): Point;
begin
  Sum.X := a.X + b.X;
  Sum.Y := a.Y + b.Y;
end;

function Powers(n: Integer): Row;
var
  k: Integer;
begin
  Powers[0] := 1;
  for k := 1 to 3 do Powers[k] := Result[k - 1] * n;
end;

function Made(n: Integer): Shape;
begin
  Made.Corner.X := n;
  Made.Corner.Y := -n;
  Made.Sides := Powers(n);
  Made.Sides[0] := Result.Sides[3] + 1;
end;

var
  One, Two: Point;
  Four: Row;
  Five: Shape;
  k: Integer;
begin
  One.X := 1;
  One.Y := 2;
  Two := Sum(One, One);
  Two := Sum(Two, One);
  WriteLn(Two.X, ' ', Two.Y);
  Four := Powers(3);
  for k := 0 to 3 do Write(Four[k], ' ');
  WriteLn;
  Five := Made(5);
  Write(Five.Corner.X, ' ', Five.Corner.Y);
  for k := 0 to 3 do Write(' ', Five.Sides[k]);
  WriteLn;
end.
