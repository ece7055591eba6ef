{ Enumerations: order, loops, tables by them, casts both ways, and one that a record declares. }
program Enumerations;
type
  Suit = (Clubs, Diamonds, Hearts, Spades);
  Rank = (Two, Three, Four, Jack, Queen, King, Ace);
  Card = record
    Kind: Suit;
    Worth: Rank;
    State: (Hidden, Shown, Gone);
  end;
const
  Names: array [Suit] of Char = ('c', 'd', 'h', 's');
var
  Hand: array [1..4] of Card;
  k: Integer;
  s: Suit;
  Best: Card;

function Beats(const a, b: Card): Boolean;
begin
  Beats := (a.Worth > b.Worth) or (a.Worth = b.Worth) and (a.Kind > b.Kind);
end;

begin
  for k := 1 to 4 do
  begin
    Hand[k].Kind := Suit((k * 3) mod 4);
    Hand[k].Worth := Rank(k * k mod 7);
    if Odd(k) then Hand[k].State := Shown else Hand[k].State := Gone;
  end;
  Best := Hand[1];
  for k := 2 to 4 do
    if Beats(Hand[k], Best) then Best := Hand[k];
  for k := 1 to 4 do Write(Names[Hand[k].Kind], Ord(Hand[k].Worth), ' ', Hand[k].State = Shown, ' ');
  WriteLn(Names[Best.Kind], Ord(Best.Worth), ' ', Ord(High(Rank)));
  for s := High(Suit) downto Low(Suit) do Write(Names[s]);
  WriteLn(Pred(Hearts) = Diamonds, ' ', Ord(Succ(Clubs)), ' ', Hidden < Gone);
end.
