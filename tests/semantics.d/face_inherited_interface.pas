{ A class that implements an interface again leaves the methods of an interface that only its ancestor has as they were. }
type
 IB = interface procedure M; end;
 ID = interface(IB) end;
 A = class(TInterfacedObject, ID) procedure M; end;
 B = class(A, IB) procedure M; end;
procedure A.M; begin WriteLn('A'); end;
procedure B.M; begin WriteLn('B'); end;
var x: ID;
begin x := B.Create; x.M; end.
