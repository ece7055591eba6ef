/* Counts the lines, words and letters of the input, and how often its most frequent word hash comes. */
#include "machine.h"

static byte buffer[4096];
static word letters[256], seen[4096];

int main(void) {
    word lines = 0, words = 0, bytes = 0, hash = 0, inside = 0, count;
    while ((count = read_bytes(buffer, sizeof buffer)) != 0) {
        bytes += count;
        for (word k = 0; k < count; k++) {
            byte c = buffer[k];
            letters[c]++;
            if (c == '\n') lines++;
            if (c > ' ') {
                hash = (hash ^ c) * 16777619u;
                inside = 1;
            } else if (inside) {
                words++;
                seen[hash >> 20]++;
                hash = inside = 0;
            }
        }
    }
    word most = 0;
    for (word k = 0; k < 4096; k++)
        if (seen[k] > seen[most]) most = k;
    write_number("bytes", bytes);
    write_number("lines", lines);
    write_number("words", words);
    write_number("e", letters['e']);
    write_number("most", seen[most]);
    return 3;
}
