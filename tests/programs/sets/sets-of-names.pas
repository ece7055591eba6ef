{ Sets of enumerations, Booleans, subranges and Chars of low numbers. }
program SetsOfNames;
type
  Day = (Monday, Tuesday, Wednesday, Thursday, Friday, Saturday, Sunday);
  Days = set of Day;
  Controls = set of #0..#31;
var
  Free, Busy: Days;
  Truths: set of Boolean;
  Work: set of Monday..Friday;
  c: Controls;
  d: Day;
begin
  Free := [Saturday, Sunday];
  Busy := [Low(Day)..High(Day)] - Free;
  for d := Monday to Sunday do Write(d in Free, ' ');
  for d := Monday to Sunday do
    if d in Busy then Write(Ord(d));
  WriteLn;
  Work := Busy;
  Exclude(Work, Wednesday);
  d := Saturday;
  WriteLn(Tuesday in Work, ' ', Wednesday in Work, ' ', d in Work, ' ', Work + Free = Busy + Free - [Wednesday]);
  Truths := [];
  Include(Truths, 3 > 2);
  WriteLn(True in Truths, ' ', False in Truths, ' ', Truths = [True]);
  c := [#9, #10, #13];
  WriteLn(#10 in c, ' ', 'A' in c, ' ', #31 in c);
end.
