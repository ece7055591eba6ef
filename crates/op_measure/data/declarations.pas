{ Declarations whose heads look alike. }
program p(input, output);
uses a, b;
const
  a = 1; b: T = ((1), (2, 3), (a: 1));
type
  a = (b) .. c; d = string[1] .. e;
  a = class private: T; public, y: T; end;
  a = class procedure x; virtual: T; protected end;
procedure p(out: T; out, x: T); forward;
begin x; y; end.
