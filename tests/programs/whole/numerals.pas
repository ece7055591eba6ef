{ Roman numerals, and numbers in other bases, written digit by digit. }
program Numerals;
const
  Values: array [1..13] of Integer = (1000, 900, 500, 400, 100, 90, 50, 40, 10, 9, 5, 4, 1);
  First = 'MCDCCXLXXIVII';

procedure Roman(n: Integer);
var
  k: Integer;
begin
  for k := 1 to 13 do
    while n >= Values[k] do
    begin
      Dec(n, Values[k]);
      case k of
        2: Write('CM');
        4: Write('CD');
        6: Write('XC');
        8: Write('XL');
        10: Write('IX');
        12: Write('IV');
      else
        Write(First[k]);
      end;
    end;
end;

procedure InBase(n, Base: Integer);
begin
  if n < 0 then
  begin
    Write('-');
    n := -n;
  end;
  if n >= Base then InBase(n div Base, Base);
  Write('0123456789abcdefghijklmnopqrstuvwxyz'[n mod Base + 1]);
end;

procedure Show(n: Integer);
begin
  Roman(n);
  Write(' ');
  InBase(n, 2);
  Write(' ');
  InBase(-n, 7);
  Write(' ');
  InBase(n, 16);
  Write(' ');
  InBase(n * n, 36);
  WriteLn;
end;

begin
  Show(4);
  Show(1999);
  Show(2024);
  Show(888);
  Show(3949);
end.
