{ Accounts in a table of records, and orders as data that move money between them. }
program Bank;
type
  Kind = (Deposit, Withdraw, Transfer, Freeze);
  Account = record
    Balance: Integer;
    Frozen: Boolean;
    Moves: Byte;
  end;
  Order = record
    What: Kind;
    From, Into: 1..4;
    Amount: Integer;
  end;
const
  Orders: array [1..8] of Order = (
    (What: Deposit; From: 1; Into: 1; Amount: 1000),
    (What: Deposit; From: 1; Into: 2; Amount: 500),
    (What: Transfer; From: 1; Into: 3; Amount: 250),
    (What: Withdraw; From: 2; Into: 2; Amount: 700),
    (What: Freeze; From: 3; Into: 3; Amount: 0),
    (What: Transfer; From: 3; Into: 1; Amount: 100),
    (What: Transfer; From: 1; Into: 2; Amount: 750),
    (What: Withdraw; From: 1; Into: 1; Amount: 1));
var
  Accounts: array [1..4] of Account;

function Take(var a: Account; Amount: Integer): Boolean;
begin
  Take := False;
  if a.Frozen or (a.Balance < Amount) then Exit;
  Dec(a.Balance, Amount);
  Inc(a.Moves);
  Take := True;
end;

procedure Give(var a: Account; Amount: Integer);
begin
  Inc(a.Balance, Amount);
  Inc(a.Moves);
end;

function Done(const o: Order): Boolean;
begin
  Done := True;
  case o.What of
    Deposit: Give(Accounts[o.Into], o.Amount);
    Withdraw: Done := Take(Accounts[o.From], o.Amount);
    Transfer:
      if Take(Accounts[o.From], o.Amount) then Give(Accounts[o.Into], o.Amount) else Done := False;
    Freeze: Accounts[o.From].Frozen := True;
  end;
end;

var
  k: Integer;
begin
  for k := Low(Orders) to High(Orders) do
    if not Done(Orders[k]) then WriteLn('order ', k, ' of kind ', Ord(Orders[k].What), ' refused');
  for k := 1 to 4 do
    WriteLn(k, Accounts[k].Balance:8, Accounts[k].Moves:4, Accounts[k].Frozen:7);
end.
