{ case over Chars sorts the letters of a table. }
program CaseOfLetters;
const
  Text: array [1..24] of Char = ('I', 't', ' ', 'i', 's', ' ', '4', ':', '3', '0', ',', ' ', 'n', 'o', 't', ' ', '5', '!', #9, #200, 'y', 'z', 'A', 'Z');
var
  Vowels, Letters, Digits, Blanks, Others, k: Integer;
begin
  Vowels := 0; Letters := 0; Digits := 0; Blanks := 0; Others := 0;
  for k := 1 to 24 do
    case Text[k] of
      'a', 'e', 'i', 'o', 'u', 'A', 'E', 'I', 'O', 'U': Inc(Vowels);
      'b'..'d', 'f'..'h', 'j'..'n', 'p'..'t', 'v'..'z', 'B'..'D', 'F'..'H', 'J'..'N', 'P'..'T', 'V'..'Z': Inc(Letters);
      '0'..'9': Inc(Digits);
      ' ', #9: Inc(Blanks);
    else
      Inc(Others);
    end;
  WriteLn(Vowels, ' ', Letters, ' ', Digits, ' ', Blanks, ' ', Others);
end.
