#include "text.h"

enum { LOAD, COPY, ADD, HALVE, TEST, LESS, JUMP, STOP };

struct instruction {
    byte what;
    byte into;
    integer from;
    byte goal;
};

static struct instruction code[32];
static byte count;
static integer registers[8];
static integer steps;

static void put(byte what, integer into, integer from, integer goal) {
    code[count].what = what;
    code[count].into = (byte)into;
    code[count].from = from;
    code[count].goal = (byte)goal;
    count++;
}

static void run(void) {
    byte at = 0;
    byte goes = 1;
    while (goes) {
        steps++;
        switch (code[at].what) {
        case LOAD: registers[code[at].into] = code[at].from; break;
        case COPY: registers[code[at].into] = registers[code[at].from]; break;
        case ADD: registers[code[at].into] = registers[code[at].into] + registers[code[at].from]; break;
        case HALVE: registers[code[at].into] = (integer)((word)registers[code[at].into] >> 1); break;
        case TEST: if (registers[code[at].into] & 1) at = (byte)(code[at].goal - 1); break;
        case LESS: if (registers[code[at].into] < registers[code[at].from]) at = (byte)(code[at].goal - 1); break;
        case JUMP: at = (byte)(code[at].goal - 1); break;
        case STOP: goes = 0; break;
        }
        at++;
    }
}

int main(void) {
    count = 0;
    put(LOAD, 0, 1, 0);
    put(LOAD, 3, 1, 0);
    put(LOAD, 4, 0, 0);
    put(LOAD, 6, 400, 0);
    put(COPY, 1, 0, 0);
    put(LOAD, 2, 0, 0);
    put(LESS, 3, 1, 8);
    put(JUMP, 0, 0, 15);
    put(ADD, 2, 3, 0);
    put(TEST, 1, 0, 12);
    put(HALVE, 1, 0, 0);
    put(JUMP, 0, 0, 6);
    put(COPY, 7, 1, 0);
    put(ADD, 1, 7, 0);
    put(JUMP, 0, 0, 21);
    put(LESS, 4, 2, 17);
    put(JUMP, 0, 0, 19);
    put(COPY, 4, 2, 0);
    put(COPY, 5, 0, 0);
    put(ADD, 0, 3, 0);
    put(JUMP, 0, 0, 24);
    put(ADD, 1, 7, 0);
    put(ADD, 1, 3, 0);
    put(JUMP, 0, 0, 6);
    put(LESS, 0, 6, 4);
    put(STOP, 0, 0, 0);
    steps = 0;
    run();
    write_integer(registers[5], 0);
    write_text(" takes ", 7, 0);
    write_integer(registers[4], 0);
    write_text(", after ", 8, 0);
    write_integer(steps, 0);
    write_text(" steps", 6, 0);
    end_line();
    return 0;
}
