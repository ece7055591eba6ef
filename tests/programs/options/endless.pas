{ not as Free Pascal: it goes on for ever, and gets 100,000 steps. }
begin Write('on'); while true do; end.
