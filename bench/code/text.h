/* What Write and WriteLn do: texts and numbers, padded on the left, each given to the machine as it comes. */
#include "../../tests/images/machine.h"

typedef int integer;

static void write_text(const char *text, word length, integer width) {
    for (integer k = (integer)length; k < width; k++) write_bytes(" ", 1);
    write_bytes(text, length);
}

static void write_integer(integer number, integer width) {
    char text[12];
    word at = sizeof text, rest = number < 0 ? 0u - (word)number : (word)number;
    do {
        text[--at] = '0' + rest % 10;
        rest /= 10;
    } while (rest);
    if (number < 0) text[--at] = '-';
    write_text(text + at, sizeof text - at, width);
}

static void write_truth(integer truth, integer width) {
    if (truth) write_text("TRUE", 4, width);
    else write_text("FALSE", 5, width);
}

static void end_line(void) { write_bytes("\n", 1); }
