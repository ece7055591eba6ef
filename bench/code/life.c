#include "text.h"

#define HEIGHT 40
#define WIDTH 48
#define GENERATIONS 40

static byte now[HEIGHT][WIDTH], next[HEIGHT][WIDTH];

static void fill(byte g[HEIGHT][WIDTH]) {
    integer n = 7;
    for (integer y = 0; y <= HEIGHT - 1; y++)
        for (integer x = 0; x <= WIDTH - 1; x++) {
            n = (n * 1309 + 13849) & 65535;
            if (n % 3 == 0) g[y][x] = 1;
            else g[y][x] = 0;
        }
}

static integer around(byte g[HEIGHT][WIDTH], integer y, integer x) {
    integer above, below, left, right;
    if (y == 0) above = HEIGHT - 1;
    else above = y - 1;
    if (y == HEIGHT - 1) below = 0;
    else below = y + 1;
    if (x == 0) left = WIDTH - 1;
    else left = x - 1;
    if (x == WIDTH - 1) right = 0;
    else right = x + 1;
    return g[above][left] + g[above][x] + g[above][right] + g[y][left] + g[y][right] + g[below][left] + g[below][x] + g[below][right];
}

static void step(byte old[HEIGHT][WIDTH], byte new[HEIGHT][WIDTH]) {
    for (integer y = 0; y <= HEIGHT - 1; y++)
        for (integer x = 0; x <= WIDTH - 1; x++) {
            integer n = around(old, y, x);
            if (n == 3 || (n == 2 && old[y][x] == 1)) new[y][x] = 1;
            else new[y][x] = 0;
        }
}

static integer alive(byte g[HEIGHT][WIDTH]) {
    integer n = 0;
    for (integer y = 0; y <= HEIGHT - 1; y++)
        for (integer x = 0; x <= WIDTH - 1; x++) n = n + g[y][x];
    return n;
}

int main(void) {
    fill(now);
    for (integer k = 1; k <= GENERATIONS / 2; k++) {
        step(now, next);
        step(next, now);
        write_integer(2 * k, 3);
        write_integer(alive(now), 6);
        end_line();
    }
    return 0;
}
