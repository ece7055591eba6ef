{ Length of the empty literal, of a Char and of text literals. }
begin WriteLn(Length('')); WriteLn(Length('a'), Length('abc')); end.
