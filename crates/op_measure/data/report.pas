program Report;
{$mode objfpc}{$H+}
uses SysUtils, Shapes;
type
  TSum = class(TInterfacedObject, IVisitor)
    FTotal: Integer;
    procedure Visit(const AName: String; ASize: Integer);
    destructor Destroy; override;
  end;
procedure TSum.Visit(const AName: String; ASize: Integer);
begin
  FTotal := FTotal + ASize;
  WriteLn(AName:8, ASize:6);
end;
destructor TSum.Destroy;
begin
  WriteLn('total':8, FTotal:6);
  inherited Destroy;
end;
var L: TShapeList; Line: String; P: Integer;
begin
  L := TShapeList.Create;
  try
    while not Eof do begin
      ReadLn(Line);
      P := Pos('=', Line);
      try
        L.Add(Copy(Line, 1, P - 1), StrToInt(Copy(Line, P + 1, Length(Line))));
      except
        on E: EShape do WriteLn('skip: ', E.Message);
        on E: EConvertError do WriteLn('bad: ', E.Message);
      end;
    end;
    L.Walk(TSum.Create);
  finally
    L.Free;
  end;
end.
