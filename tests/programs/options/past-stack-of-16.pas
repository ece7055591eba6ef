{ not as Free Pascal: here an activation is charged by its text, and the stack has 16 KiB. 40 times 404 are 16,160 bytes, and the main part takes 320. }
procedure f(n: Integer); begin if n > 0 then f(n - 1); end;
begin f(39); end.
