#include "text.h"

static word knows[32];
static integer seed_of_people;

static integer random_number(integer limit) {
    seed_of_people = (seed_of_people * 1309 + 13849) & 65535;
    return seed_of_people % limit;
}

static void meet(void) {
    for (integer a = 0; a <= 31; a++) knows[a] = 0;
    for (integer a = 0; a <= 30; a++)
        for (integer b = a + 1; b <= 31; b++)
            if (random_number(5) < 2) {
                knows[a] |= 1u << b;
                knows[b] |= 1u << a;
            }
}

static integer size(word s) {
    integer n = 0;
    for (integer k = 0; k <= 31; k++)
        if (s >> k & 1) n++;
    return n;
}

int main(void) {
    seed_of_people = 5;
    meet();
    integer threes = 0;
    integer fours = 0;
    integer most = 0;
    for (integer a = 0; a <= 30; a++)
        for (integer b = a + 1; b <= 31; b++)
            if (knows[a] >> b & 1) {
                word both = knows[a] & knows[b];
                if (size(both) > most) most = size(both);
                for (integer c = b + 1; c <= 31; c++)
                    if (both >> c & 1) {
                        threes++;
                        word all = both & knows[c] & ~(1u << a | 1u << b | 1u << c);
                        for (integer d = c + 1; d <= 31; d++)
                            if (all >> d & 1) fours++;
                    }
            }
    write_integer(threes, 0);
    write_text(" threes, ", 9, 0);
    write_integer(fours, 0);
    write_text(" fours, ", 8, 0);
    write_integer(most, 0);
    end_line();
    return 0;
}
