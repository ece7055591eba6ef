/* What a program of these images has instead of a library: the three environment calls, and numbers as text. */
#ifndef SCALE
#define SCALE 1
#endif

typedef unsigned int word;
typedef unsigned char byte;

static inline word call(word number, word a, word b, word c) {
    register word a0 asm("a0") = a;
    register word a1 asm("a1") = b;
    register word a2 asm("a2") = c;
    register word a7 asm("a7") = number;
    asm volatile("ecall" : "+r"(a0) : "r"(a1), "r"(a2), "r"(a7) : "memory");
    return a0;
}

static inline word read_bytes(void *buffer, word size) { return call(63, 0, (word)buffer, size); }
static inline void write_bytes(const void *buffer, word size) { call(64, 1, (word)buffer, size); }

static void write_number(const char *name, word value) {
    char line[48];
    word at = sizeof line;
    line[--at] = '\n';
    do {
        line[--at] = '0' + value % 10;
        value /= 10;
    } while (value);
    line[--at] = ' ';
    const char *end = name;
    while (*end) end++;
    while (end != name) line[--at] = *--end;
    write_bytes(line + at, sizeof line - at);
}

/* A generator of numbers that look random. */
static word seed = 1;
static inline word next_random(void) {
    seed ^= seed << 13;
    seed ^= seed >> 17;
    seed ^= seed << 5;
    return seed;
}

int main(void);

static byte stack[65536] __attribute__((aligned(16)));

__attribute__((naked, used, section(".start"))) void _start(void) {
    asm volatile("la sp, %0\n"
                 "li t0, 65536\n"
                 "add sp, sp, t0\n"
                 "call main\n"
                 "li a7, 93\n"
                 "ecall\n"
                 : : "i"(stack));
}
