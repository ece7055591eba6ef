{ A month on a page, and the weekday of some dates. }
program Calendar;
type
  Weekday = (Monday, Tuesday, Wednesday, Thursday, Friday, Saturday, Sunday);
  Month = 1..12;
const
  Names: array [Weekday] of array [1..2] of Char =
    (('M', 'o'), ('T', 'u'), ('W', 'e'), ('T', 'h'), ('F', 'r'), ('S', 'a'), ('S', 'u'));

function IsLeap(Year: Integer): Boolean;
begin
  IsLeap := (Year mod 4 = 0) and (Year mod 100 <> 0) or (Year mod 400 = 0);
end;

function Days(Year: Integer; M: Month): Integer;
begin
  case M of
    2: if IsLeap(Year) then Days := 29 else Days := 28;
    4, 6, 9, 11: Days := 30;
  else
    Days := 31;
  end;
end;

{ The day that Zeller's rule gives. }
function DayOf(Year: Integer; M: Month; Day: Integer): Weekday;
var
  N: Integer;
begin
  N := M;
  if N < 3 then
  begin
    Inc(N, 12);
    Dec(Year);
  end;
  DayOf := Weekday((Day + 13 * (N + 1) div 5 + Year + Year div 4 - Year div 100 + Year div 400 + 5) mod 7);
end;

procedure Page(Year: Integer; M: Month);
var
  D: Weekday;
  Day: Integer;
begin
  WriteLn(M:9, '/', Year);
  for D := Monday to Sunday do Write(' ', Names[D, 1], Names[D, 2]);
  WriteLn;
  Write('':3 * Ord(DayOf(Year, M, 1)));
  for Day := 1 to Days(Year, M) do
  begin
    Write(Day:3);
    if (DayOf(Year, M, Day) = Sunday) or (Day = Days(Year, M)) then WriteLn;
  end;
end;

procedure Show(Year: Integer; M: Month; Day: Integer);
begin
  WriteLn(Year, '-', M, '-', Day, ' ', Names[DayOf(Year, M, Day), 1], Names[DayOf(Year, M, Day)][2]);
end;

begin
  Page(2024, 2);
  Show(1789, 7, 14);
  Show(1969, 7, 20);
  Show(2000, 2, 29);
end.
