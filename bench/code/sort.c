#include "text.h"

#define LAST 10000

static integer items[LAST + 1];
static integer seed_of_items;

static integer random_number(void) {
    seed_of_items = (integer)((word)seed_of_items * 1103515245u + 12345u);
    return (integer)((word)seed_of_items >> 8);
}

static void sink(integer root, integer count) {
    integer item = items[root];
    while (2 * root <= count) {
        integer child = 2 * root;
        if (child < count && items[child] < items[child + 1]) child++;
        if (items[child] <= item) break;
        items[root] = items[child];
        root = child;
    }
    items[root] = item;
}

int main(void) {
    seed_of_items = 1;
    for (integer k = 1; k <= LAST; k++) items[k] = random_number();
    for (integer k = LAST / 2; k >= 1; k--) sink(k, LAST);
    for (integer k = LAST; k >= 2; k--) {
        integer item = items[k];
        items[k] = items[1];
        items[1] = item;
        sink(1, k - 1);
    }
    integer sum = 0;
    for (integer k = 2; k <= LAST; k++) {
        if (items[k - 1] > items[k]) {
            write_text("not sorted", 10, 0);
            end_line();
        }
        sum = (integer)((word)sum * 31u + (word)items[k]);
    }
    write_integer(items[1], 0);
    write_text(" ", 1, 0);
    write_integer(items[LAST], 0);
    write_text(" ", 1, 0);
    write_integer(sum, 0);
    end_line();
    return 0;
}
