unit Shapes;
{$mode objfpc}{$H+}
interface
uses SysUtils;
type
  EShape = class(Exception) end;
  IVisitor = interface
    procedure Visit(const AName: String; ASize: Integer);
  end;
  TItem = record Name: String; Size: Integer; end;
  TShapeList = class
  private
    FItems: array of TItem;
  public
    procedure Add(const AName: String; ASize: Integer);
    procedure Walk(V: IVisitor);
    destructor Destroy; override;
  end;
implementation
procedure TShapeList.Add(const AName: String; ASize: Integer);
var N: Integer;
begin
  if ASize < 0 then raise EShape.Create('negative size: ' + AName);
  N := Length(FItems);
  SetLength(FItems, N + 1);
  FItems[N].Name := AName;
  FItems[N].Size := ASize;
end;
procedure TShapeList.Walk(V: IVisitor);
var I: Integer;
begin
  for I := 0 to High(FItems) do V.Visit(FItems[I].Name, FItems[I].Size);
end;
destructor TShapeList.Destroy;
begin
  WriteLn('list of ', Length(FItems), ' freed');
  inherited Destroy;
end;
end.
