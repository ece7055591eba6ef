PROGRAM sums(output); {sums}
uses SysUtils; var table:packed array[-9..1]of Integer;
i:Integer=3; function Twice(const x:Integer):Integer; begin Result:=x*2 end;
begin for i:=1 to 10 do WriteLn(i:4); if(i+2)*3<=10 then begin i:=table[i];
end else WriteLn('it''s'#13#10) end.
