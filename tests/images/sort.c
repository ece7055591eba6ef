/* Sorts words by heaps, and by a search in what was sorted. */
#include "machine.h"

#define COUNT (20000u * SCALE)

static word items[COUNT];

static void sink(word root, word count) {
    word item = items[root];
    for (;;) {
        word child = 2 * root + 1;
        if (child >= count) break;
        if (child + 1 < count && items[child] < items[child + 1]) child++;
        if (items[child] <= item) break;
        items[root] = items[child];
        root = child;
    }
    items[root] = item;
}

static word rank(word item) {
    word low = 0, high = COUNT;
    while (low < high) {
        word middle = (low + high) / 2;
        if (items[middle] < item) low = middle + 1;
        else high = middle;
    }
    return low;
}

int main(void) {
    for (word k = 0; k < COUNT; k++) items[k] = next_random();
    for (word k = COUNT / 2; k-- > 0;) sink(k, COUNT);
    for (word last = COUNT; last-- > 1;) {
        word item = items[last];
        items[last] = items[0];
        items[0] = item;
        sink(0, last);
    }
    word sum = 0;
    for (word k = 1; k < COUNT; k++) {
        if (items[k - 1] > items[k]) return 1;
        sum += items[k] ^ k;
    }
    for (word k = 0; k < COUNT; k++) sum = sum * 31 + rank(next_random());
    write_number("sorted", sum);
    return 7;
}
