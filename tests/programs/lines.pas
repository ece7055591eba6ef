{$mode objfpc}{$H+}

program lines;
	begin
  WriteLn ( 'a b  c' )
;WriteLn('');WriteLn('{ no comment } // none; end.');
end
.

