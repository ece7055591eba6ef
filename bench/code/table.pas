{ A table of numbers in columns, and which of them are odd. }
program Table;
var
  Row, Column, Sum, Total: Integer;
begin
  Total := 0;
  for Row := 1 to 150 do
  begin
    Write(Row:4, ':');
    Sum := 0;
    for Column := 1 to 10 do
    begin
      Write(Row * Column * Column - 5000:8);
      Sum := Sum + Row * Column;
    end;
    WriteLn(Sum:10, Odd(Sum):7);
    Total := Total + Sum;
  end;
  WriteLn(Total:12);
end.
