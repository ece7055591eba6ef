#include "text.h"

#define SIZE 40

typedef integer rows[SIZE + 1][SIZE + 1];

static rows given, square, fourth;

static void multiply(const rows a, const rows b, rows c) {
    for (integer i = 1; i <= SIZE; i++)
        for (integer j = 1; j <= SIZE; j++) {
            integer sum = 0;
            for (integer k = 1; k <= SIZE; k++) sum = sum + a[i][k] * b[k][j];
            c[i][j] = sum % 10007;
        }
}

int main(void) {
    for (integer i = 1; i <= SIZE; i++)
        for (integer j = 1; j <= SIZE; j++) given[i][j] = (i * 17 + j * 31) % 101 - 50;
    multiply(given, given, square);
    multiply(square, square, fourth);
    integer trace = 0;
    for (integer i = 1; i <= SIZE; i++) trace = trace + fourth[i][i];
    write_integer(trace, 0);
    write_text(" ", 1, 0);
    write_integer(square[1][SIZE], 0);
    write_text(" ", 1, 0);
    write_integer(fourth[SIZE][1], 0);
    end_line();
    return 0;
}
