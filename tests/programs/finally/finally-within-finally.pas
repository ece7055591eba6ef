{ Nested finally parts are done from the innermost one on. }
program FinallyWithinFinally;
var
  Turn: Integer;

function Nested(n: Integer): Integer;
begin
  Nested := 0;
  try
    try
      try
        Write('a');
        if n = 1 then Exit(1);
        Write('b');
      finally
        Write('c');
      end;
      if n = 2 then Exit(2);
      Write('d');
    finally
      try
        Write('e');
      finally
        Write('f');
      end;
    end;
    if n = 3 then Exit(3);
    Write('g');
  finally
    Write('h ');
    Result := Result * 10 + n;
  end;
  Write('i ');
end;

begin
  for Turn := 1 to 4 do WriteLn(Nested(Turn));
end.
