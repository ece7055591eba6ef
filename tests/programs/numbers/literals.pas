{ Numbers in four bases, with leading zeros, up to the ends of Integer. }
program Literals;
begin
  WriteLn(0, ' ', 007, ' ', 2147483647, ' ', -2147483648, ' ', -0);
  WriteLn($7FFFFFFF, ' ', $ff, ' ', $Ff, ' ', $00000001, ' ', -$80000000);
  WriteLn(&17, ' ', &0, ' ', &17777777777);
  WriteLn(%101, ' ', %1111111111111111111111111111111, ' ', -%10);
  WriteLn(1, 2, 3, -4);
  WriteLn(+5, - -5, -(-5), + -5);
end.
