type a = class property b: T; default; end;
