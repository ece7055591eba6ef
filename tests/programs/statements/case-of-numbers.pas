{ case with labels, ranges, negative ones, both ends of Integer, else and nothing that fits. }
program CaseOfNumbers;

procedure Tell(n: Integer);
begin
  Write(n, ': ');
  case n of
    -2147483648: Write('least');
    -100..-10: Write('below');
    -9..-1, 1..9:
      begin
        Write('near ');
        if n < 0 then Write('left') else Write('right');
      end;
    0: ;
    10, 12, 14..20, 30: Write('listed');
    MaxInt - 1..MaxInt: Write('last');
  else
    Write('other');
    Write(' number');
  end;
  WriteLn;
end;

begin
  Tell(-MaxInt - 1); Tell(-MaxInt); Tell(-101); Tell(-100); Tell(-10); Tell(-9); Tell(-1); Tell(0); Tell(1); Tell(9);
  Tell(10); Tell(11); Tell(12); Tell(13); Tell(14); Tell(20); Tell(21); Tell(30); Tell(MaxInt - 2); Tell(MaxInt - 1); Tell(MaxInt);
end.
