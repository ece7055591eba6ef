{ The letters of a sentence: which ones it has, which ones it lacks, and how often each one stands in it. }
program Letters;
const
  Sentence = 'The quick brown dog jumps over the lazy cat';
type
  { A set has at most 32 values, so it has the numbers of the letters. }
  Number = 0..25;
  Numbers = set of Number;
var
  Counts: array ['a'..'z'] of Integer;
  Seen: Numbers;
  C: Char;
  K: Integer;

function IsLetter(C: Char): Boolean;
begin
  IsLetter := (UpCase(C) >= 'A') and (UpCase(C) <= 'Z');
end;

procedure Show(const S: Numbers);
var
  N: Number;
begin
  for N := 0 to 25 do
    if N in S then Write(Chr(Ord('a') + N));
  WriteLn;
end;

begin
  for K := 1 to Length(Sentence) do
    if IsLetter(Sentence[K]) then
    begin
      C := Chr(Ord(UpCase(Sentence[K])) + 32);
      Inc(Counts[C]);
      Include(Seen, Ord(C) - Ord('a'));
    end;
  Write('has     ');
  Show(Seen);
  Write('lacks   ');
  Show([0..25] - Seen);
  Write('vowels  ');
  Show(Seen * [0, 4, 8, 14, 20]);
  for C := 'a' to 'z' do
    if Counts[C] > 1 then
    begin
      Write(C, Counts[C]:2, ' ');
      for K := 1 to Counts[C] do Write('*');
      WriteLn;
    end;
end.
