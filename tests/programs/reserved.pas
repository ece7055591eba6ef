program record; begin end.
