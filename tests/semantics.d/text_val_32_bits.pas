{ Numbers just within and just outside of 32 bits }
var v, c: Integer;
begin
  Val('2147483648', v, c); WriteLn(v, ' ', c);
  Val('-2147483649', v, c); WriteLn(v, ' ', c);
  Val('$123456789', v, c); WriteLn(v, ' ', c);
  Val('99999999999', v, c); WriteLn(v, ' ', c);
  Val('%11111111111111111111111111111111', v, c); WriteLn(v, ' ', c)
end.
