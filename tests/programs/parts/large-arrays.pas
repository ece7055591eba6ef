{ Arrays of many kibibytes: one of bytes, one of numbers, one of records. A routine that names one is charged its size. }
program LargeArrays;
type
  Page = array [0..399999] of Byte;
  Numbers = array [1..100000] of Integer;
  Pair = record
    a: Byte;
    b: Word;
  end;
var
  Bytes, Second: Page;
  Large: Numbers;
  Pairs: array [1..100000] of Pair;

procedure Fill(k: Integer);
begin
  while k < 400000 do
  begin
    Bytes[k] := k div 2048;
    Inc(k, 1021);
  end;
end;

procedure CopyPage;
begin
  Second := Bytes;
end;

procedure Store(k, n: Integer);
begin
  Large[k] := n;
end;

function Sum: Integer;
var
  k: Integer;
begin
  Result := 0;
  for k := 0 to 399999 do Result := (Result + Second[k]) mod 65536;
end;

function Stored(k: Integer): Integer;
begin
  Stored := Large[k];
end;

procedure StorePair(k: Integer);
begin
  Pairs[k].b := 65535;
end;

function Paired(k: Integer): Integer;
begin
  Paired := Pairs[k].b;
end;

begin
  Fill(0);
  CopyPage;
  Fill(1);
  Store(1, -7);
  Store(100000, 12);
  StorePair(100000);
  WriteLn(Sum, ' ', Stored(1), ' ', Stored(2), ' ', Stored(99999), ' ', Stored(100000), ' ', Paired(99999), ' ', Paired(100000));
end.
