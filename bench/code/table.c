#include "text.h"

int main(void) {
    integer total = 0;
    for (integer row = 1; row <= 150; row++) {
        write_integer(row, 4);
        write_text(":", 1, 0);
        integer sum = 0;
        for (integer column = 1; column <= 10; column++) {
            write_integer(row * column * column - 5000, 8);
            sum = sum + row * column;
        }
        write_integer(sum, 10);
        write_truth(sum & 1, 7);
        end_line();
        total = total + sum;
    }
    write_integer(total, 12);
    end_line();
    return 0;
}
