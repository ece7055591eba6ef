{ Fields of each type, records within records, and assignment of whole ones, which copies. }
program Records;
type
  Light = (Red, Amber, Green);
  Date = record
    Year: Word;
    Month, Day: Byte;
  end;
  Entry = record
    Name: array [1..3] of Char;
    Born: Date;
    Score: Integer;
    Shown: Light;
    Known: Boolean;
    Marks: set of 1..5;
    Place: record
      x, y: ShortInt;
    end;
  end;
var
  a, b: Entry;

procedure Show(const e: Entry);
begin
  WriteLn(e.Name[1], e.Name[2], e.Name[3], ' ', e.Born.Year, '-', e.Born.Month, '-', e.Born.Day, ' ', e.Score, ' ', Ord(e.Shown),
    ' ', e.Known, ' ', 3 in e.Marks, ' ', e.Place.x, ' ', e.Place.y);
end;

begin
  a.Name[1] := 'A'; a.Name[2] := 'd'; a.Name[3] := 'a';
  a.Born.Year := 1815; a.Born.Month := 12; a.Born.Day := 10;
  a.Score := -100000; a.Shown := Green; a.Known := True; a.Marks := [1, 3]; a.Place.x := -128; a.Place.y := 127;
  b := a;
  b.Born.Day := 11; b.Place.x := 5; b.Name[2] := 'v'; b.Marks := [5]; b.Shown := Red; b.Known := False;
  Show(a);
  Show(b);
  a.Born := b.Born;
  a.Place := b.Place;
  Show(a);
end.
