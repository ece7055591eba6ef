{ Prints the months of a year, week by week. }
program Calendar;

const
  FirstYear = 1600;
  LastYear = 2399;
  DaysInWeek = 7;

type
  Day = (Mon, Tue, Wed, Thu, Fri, Sat, Sun);
  Month = 1..12;
  Year = FirstYear..LastYear;
  Days = set of Day;
  Date = record
    Y: Year;
    M: Month;
    D: 1..31;
  end;
  Week = array [Day] of Integer;
  Lengths = array [Month] of Integer;

const
  Weekend = [Sat, Sun];
  Plain: Lengths = (31, 28, 31, 30, 31, 30, 31, 31, 30, 31, 30, 31);
  Start: Date = (Y: 2026; M: 1; D: 1);

var
  Today: Date;
  Free: Days = [Sun];
  Count: Integer;

function DayOf(const When: Date): Day; forward;

function IsLeap(Y: Year): Boolean;
begin
  IsLeap := (Y mod 4 = 0) and ((Y mod 100 <> 0) or (Y mod 400 = 0));
end;

function LengthOf(Y: Year; M: Month): Integer;
begin
  Result := Plain[M];
  if (M = 2) and IsLeap(Y) then
    Inc(Result);
end;

function Before(const When: Date): Integer;
var
  M: Integer;
begin
  Before := When.D - 1;
  for M := 1 to When.M - 1 do
    Before := Result + LengthOf(When.Y, M);
end;

function DayOf(const When: Date): Day;
var
  Y, Passed: Integer;
begin
  Passed := Before(When) + Ord(Sat);
  for Y := FirstYear to When.Y - 1 do
    if IsLeap(Y) then Passed := Passed + 366 else Passed := Passed + 365;
  Result := Day(Passed mod DaysInWeek);
end;

procedure Clear(out Row: Week);
var
  D: Day;
begin
  for D := Low(Day) to High(Day) do
    Row[D] := 0;
end;

procedure Print(const Row: Week);
var
  D: Day;
begin
  for D := Mon to Sun do
    case Row[D] of
      1..31: Write(Row[D]:4);
      0: Write(' ':4)
    else
      Write('?':4);
    end;
  WriteLn;
end;

procedure PrintMonth(Y: Year; M: Month; var Work: Integer);
var
  When: Date;
  Row: Week;
  D: Day;
  N: Integer;
begin
  When.Y := Y;
  When.M := M;
  Clear(Row);
  for N := 1 to LengthOf(Y, M) do
  begin
    When.D := N;
    D := DayOf(When);
    Row[D] := N;
    if not (D in Weekend + Free) then
      Work := Work + 1;
    if D = High(Day) then
    begin
      Print(Row);
      Clear(Row);
    end;
  end;
  if Row[Mon] <> 0 then
    Print(Row);
end;

var
  M: Month;
begin
  Today := Start;
  for M := 1 to 12 do
  begin
    WriteLn('Month ', M:2, ' of ', Today.Y);
    PrintMonth(Today.Y, M, Count);
  end;
  WriteLn('days of work:', Count:4);
end.
