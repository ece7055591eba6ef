{ not as Free Pascal: there a status above 255 ends with 255. Of the status the low eight bits count: 256 + 3 is 3. }
program HaltLowBits;
begin
  Halt(256 + 3);
end.
