#include "text.h"

static integer rows[9];
static byte columns[9], rising[17], falling[15];
static integer found, tried;

static void settle(integer x) {
    for (integer y = 1; y <= 8; y++) {
        tried++;
        if (!(columns[y] || rising[x + y] || falling[x - y + 7])) {
            rows[x] = y;
            if (x == 8) found++;
            else {
                columns[y] = 1;
                rising[x + y] = 1;
                falling[x - y + 7] = 1;
                settle(x + 1);
                columns[y] = 0;
                rising[x + y] = 0;
                falling[x - y + 7] = 0;
            }
        }
    }
}

int main(void) {
    settle(1);
    write_integer(found, 0);
    write_text(" ways, ", 7, 0);
    write_integer(tried, 0);
    write_text(" tries", 6, 0);
    end_line();
    return 0;
}
