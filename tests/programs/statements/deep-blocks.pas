{ Statements within one another. }
program DeepBlocks;
var
  a, b, c, d, Sum: Integer;
begin
  Sum := 0;
  for a := 1 to 3 do
    if Odd(a) then
      for b := a downto 1 do
      begin
        c := b;
        while c > 0 do
        begin
          repeat
            Dec(c);
            case c of
              0: begin
                   for d := 1 to 2 do
                     if d = a then Sum := Sum + 1
                     else if d < a then begin Sum := Sum + 10; Continue; end
                     else Sum := Sum + 100;
                 end;
              1: Sum := Sum + 1000;
            else
              Sum := Sum + 10000;
            end;
          until (c = 0) or Odd(c);
        end;
      end;
  WriteLn(Sum);
end.
