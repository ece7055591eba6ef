#include "text.h"

#define LAST 65535

static integer table[256];
static byte bytes[LAST + 1];

static void prepare(void) {
    word n;
    for (integer k = 0; k <= 255; k++) {
        n = (word)k;
        for (integer bit = 1; bit <= 8; bit++) {
            if (n & 1) n = n >> 1 ^ 0xedb88320u;
            else n = n >> 1;
        }
        table[k] = (integer)n;
    }
    n = 1;
    for (integer k = 0; k <= LAST; k++) {
        n = n * 69069u + 1u;
        bytes[k] = (byte)(n >> 24);
    }
}

static integer sum(integer first, integer count) {
    word n = ~0u;
    for (integer k = first; k <= first + count - 1; k++) n = (word)table[(n ^ bytes[k]) & 255] ^ n >> 8;
    return (integer)~n;
}

int main(void) {
    prepare();
    for (integer k = 0; k <= 3; k++) {
        write_integer(sum(k * 16384, 16384), 12);
        end_line();
    }
    write_integer(sum(0, 65536), 12);
    end_line();
    return 0;
}
