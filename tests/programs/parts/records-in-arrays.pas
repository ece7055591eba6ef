{ Records in arrays in records, and places that go through all of them. }
program RecordsInArrays;
type
  Item = record
    Count: Byte;
    Price: array [Boolean] of Word;
  end;
  Shelf = record
    Items: array ['a'..'c', 0..1] of Item;
    Used: Integer;
  end;
var
  Store: array [1..2] of Shelf;
  i: Item;
  c: Char;
  k, n: Integer;
begin
  for k := 1 to 2 do
    for c := 'a' to 'c' do
      for n := 0 to 1 do
      begin
        Store[k].Items[c, n].Count := Ord(c) - 96 + k;
        Store[k].Items[c][n].Price[False] := k * 1000 + Ord(c);
        Store[k].Items[c, n].Price[True] := n;
        Inc(Store[k].Used, Store[k].Items[c, n].Count);
      end;
  i := Store[2].Items['b', 1];
  i.Price := Store[1].Items['c', 0].Price;
  Store[1].Items['a'] := Store[2].Items['c'];
  Store[2].Items['b', 1] := i;
  for k := 1 to 2 do
  begin
    Write(Store[k].Used);
    for c := 'a' to 'c' do
      Write(' ', Store[k].Items[c, 1].Count, '/', Store[k].Items[c, 1].Price[False], '/', Store[k].Items[c, 1].Price[True]);
    WriteLn;
  end;
end.
