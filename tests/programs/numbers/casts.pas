{ A cast to a predefined integer type or to Char keeps the low bits. }
program Casts;
type
  Day = (Monday, Tuesday, Wednesday, Thursday, Friday, Saturday, Sunday);
var
  Number: Integer;
  Today: Day;
begin
  Number := -25791;
  WriteLn(Byte(Number), ' ', ShortInt(Number), ' ', Word(Number), ' ', SmallInt(Number), ' ', Integer(Number), ' ', LongInt(Number));
  WriteLn(Char(Number), Char(65 + 256), Chr(66 - 512));
  Number := 200;
  WriteLn(ShortInt(Number), ' ', ShortInt(Byte(ShortInt(Number))), ' ', Byte(ShortInt(Number)));
  Today := Day(3);
  WriteLn(Ord(Today), ' ', Integer(Today), ' ', Byte(Today) + 1, ' ', Today = Thursday, ' ', Day(Number - 199) = Tuesday);
  WriteLn(Integer('A'), ' ', Byte('z'), ' ', Integer(True), ' ', Ord(Boolean(0)), ' ', Boolean(Number - 199), ' ', Char(Friday) = #4);
end.
