{ Reads sums and products with brackets from a table of characters, and works them out, again and again. }
program Parse;
const
  Last = 54;
var
  Text: array [1..Last] of Char = (
    '3', '+', '4', '*', '(', '1', '2', '-', '5', ')', ';',
    '1', '0', '0', '-', '(', '7', '*', '(', '8', '+', '1', ')', ')', '*', '2', ';',
    ' ', '4', '2', ' ', '*', ' ', '4', '2', ' ', '-', ' ', '6', ';',
    '(', '(', '9', ')', '+', '1', ')', '*', '1', '2', '3', ';',
    '0', ';');
  At: Integer;

procedure Skip;
begin
  while Text[At] = ' ' do Inc(At);
end;

function Sum: Integer; forward;

function Number: Integer;
var
  n: Integer;
begin
  n := 0;
  while (Text[At] >= '0') and (Text[At] <= '9') do
  begin
    n := n * 10 + Ord(Text[At]) - Ord('0');
    Inc(At);
  end;
  Number := n;
end;

function Factor: Integer;
begin
  Skip;
  if Text[At] = '(' then
  begin
    Inc(At);
    Factor := Sum;
    Skip;
    Inc(At);
  end
  else Factor := Number;
  Skip;
end;

function Product: Integer;
var
  n: Integer;
begin
  n := Factor;
  while Text[At] = '*' do
  begin
    Inc(At);
    n := n * Factor;
  end;
  Product := n;
end;

function Sum: Integer;
var
  n: Integer;
begin
  n := Product;
  while (Text[At] = '+') or (Text[At] = '-') do
    if Text[At] = '+' then
    begin
      Inc(At);
      n := n + Product;
    end
    else
    begin
      Inc(At);
      n := n - Product;
    end;
  Sum := n;
end;

var
  k, Total, Lines: Integer;
begin
  Total := 0;
  Lines := 0;
  for k := 1 to 250 do
  begin
    At := 1;
    while At <= Last do
    begin
      Total := (Total * 7 + Sum) and 16777215;
      Inc(Lines);
      Inc(At);
    end;
  end;
  WriteLn(Lines, ' lines, ', Total);
end.
