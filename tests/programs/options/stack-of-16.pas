{ not as Free Pascal: here an activation is charged by its text, and the stack has 16 KiB. 39 times 404 and 320 are 16,076 bytes. }
procedure f(n: Integer); begin if n > 0 then f(n - 1); end;
begin f(38); end.
