{ A destructor that destroys its object again ends with 204 at the second release. }
type TT = class destructor Destroy; override; end;
destructor TT.Destroy; begin WriteLn('d'); Destroy; end;
begin TT.Create.Free; end.
