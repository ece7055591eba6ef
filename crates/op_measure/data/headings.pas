unit u; interface procedure c; overload; implementation begin end.
