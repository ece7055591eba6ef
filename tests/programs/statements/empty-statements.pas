{ Semicolons, empty blocks and empty branches. }
program EmptyStatements;
var
  k: Integer;
begin
  ;;
  begin end;
  begin ; begin ;; end end;
  k := 1;
  if k = 1 then;
  if k = 2 then else;
  if k = 1 then begin end else begin end;
  while k < 1 do;
  for k := 1 to 3 do begin end;
  repeat ; ; until True;
  case k of
    1: ;
    2:
  end;
  case k of
    3: begin end;
  else
  end;
  try finally end;
  WriteLn('done');;
end.
