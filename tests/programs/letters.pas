{ names are free in the case of their letters, and a program needs no heading }
BEGIN
  writeln('it''s'#9'here');
  ; WRITELN('');
  WriteLn('a') { a Char is a text }
END.
