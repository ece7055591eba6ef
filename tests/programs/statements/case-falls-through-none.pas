{ One branch is done at most; the selector is evaluated once; a value without a label does nothing. }
program CaseFallsThroughNone;
var
  Calls, k: Integer;

function Next: Integer;
begin
  Inc(Calls);
  Next := Calls;
end;

begin
  Calls := 0;
  for k := 1 to 5 do
    case Next of
      1: WriteLn('one');
      2: case Next of
           2: WriteLn('two again');
           3: WriteLn('three within two');
         end;
      5: WriteLn('five');
    end;
  WriteLn(Calls);
  case k + 1 of
    6: k := 1;
    1: k := 2;
  end;
  WriteLn(k);
end.
