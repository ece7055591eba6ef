{ An out parameter stands for the argument's place too; it gives back several values. }
program OutParameters;
type
  Parts = record
    Whole, Rest: Integer;
  end;
var
  p: Parts;
  a: array [1..2] of Integer;
  Least, Most: Integer;

procedure Divide(a, b: Integer; out Whole, Rest: Integer);
begin
  Whole := a div b;
  Rest := a mod b;
end;

procedure Ends(a, b, c: Integer; out Least, Most: Integer);
begin
  Least := a;
  Most := a;
  if b < Least then Least := b;
  if c < Least then Least := c;
  if b > Most then Most := b;
  if c > Most then Most := c;
end;

procedure Fill(out p: Parts);
begin
  Divide(100, 7, p.Whole, p.Rest);
end;

begin
  Divide(17, 5, Least, Most);
  WriteLn(Least, ' ', Most);
  Divide(-17, 5, a[1], a[2]);
  WriteLn(a[1], ' ', a[2]);
  Ends(3, -8, 5, Least, Most);
  WriteLn(Least, ' ', Most);
  Fill(p);
  WriteLn(p.Whole, ' ', p.Rest);
end.
