#include "text.h"

static integer calls, moves;
static integer discs[4];

static integer tak(integer x, integer y, integer z) {
    calls++;
    if (x <= y) return z;
    return tak(tak(x - 1, y, z), tak(y - 1, z, x), tak(z - 1, x, y));
}

static void move(integer count, byte source, byte target) {
    if (count == 0) return;
    byte other = (byte)(6 - source - target);
    move(count - 1, source, other);
    discs[source]--;
    discs[target]++;
    moves++;
    move(count - 1, other, target);
}

int main(void) {
    calls = 0;
    write_integer(tak(15, 10, 5), 0);
    write_text(" after ", 7, 0);
    write_integer(calls, 0);
    write_text(" calls", 6, 0);
    end_line();
    moves = 0;
    discs[1] = 13;
    discs[2] = 0;
    discs[3] = 0;
    move(13, 1, 3);
    write_integer(moves, 0);
    write_text(" moves: ", 8, 0);
    write_integer(discs[1], 0);
    write_text(" ", 1, 0);
    write_integer(discs[2], 0);
    write_text(" ", 1, 0);
    write_integer(discs[3], 0);
    end_line();
    return 0;
}
