var a: Integer; begin a := 1 end.
