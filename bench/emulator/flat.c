/* A plain interpreter of RV32IM images over flat memory, to measure against: one array for all addresses, which tests neither segments nor rights nor
   alignment, and one switch, each word decoded at each step. It writes nothing of a fault: an image that has one does what the array happens to give. */
#include <stdint.h>
#include <stdio.h>
#include <stdlib.h>
#include <string.h>
#include <sys/mman.h>

/* all addresses, and the bytes that a word at the last one touches */
#define SPACE (((uint64_t)1 << 32) + 4)

static uint8_t *memory;
static uint32_t x[32];

static uint32_t word_at(const uint8_t *p) {
    uint32_t word;
    memcpy(&word, p, 4);
    return word;
}

/* the environment call in a7 */
static uint32_t call(void) {
    switch (x[17]) {
    case 63: return fread(memory + x[11], 1, x[12], stdin);
    case 64: return fwrite(memory + x[11], 1, x[12], x[10] == 2 ? stderr : stdout);
    case 93: exit(x[10] & 255);
    default: exit(126);
    }
}

static uint32_t by_immediate(uint32_t word, uint32_t a) {
    int32_t immediate = (int32_t)word >> 20;
    switch (word >> 12 & 7) {
    case 0: return a + immediate;
    case 1: return a << (immediate & 31);
    case 2: return (int32_t)a < immediate;
    case 3: return a < (uint32_t)immediate;
    case 4: return a ^ immediate;
    case 5: return word >> 30 & 1 ? (uint32_t)((int32_t)a >> (immediate & 31)) : a >> (immediate & 31);
    case 6: return a | immediate;
    default: return a & immediate;
    }
}

static uint32_t by_register(uint32_t word, uint32_t a, uint32_t b) {
    switch (word >> 25 << 3 | (word >> 12 & 7)) {
    case 0: return a + b;
    case 1: return a << (b & 31);
    case 2: return (int32_t)a < (int32_t)b;
    case 3: return a < b;
    case 4: return a ^ b;
    case 5: return a >> (b & 31);
    case 6: return a | b;
    case 7: return a & b;
    case 8: return a * b;
    case 9: return (uint64_t)((int64_t)(int32_t)a * (int32_t)b) >> 32;
    case 10: return (uint64_t)((int64_t)(int32_t)a * (int64_t)b) >> 32;
    case 11: return (uint64_t)a * b >> 32;
    case 12: return b == 0 ? ~0u : a == 0x80000000 && b == ~0u ? a : (uint32_t)((int32_t)a / (int32_t)b);
    case 13: return b == 0 ? ~0u : a / b;
    case 14: return b == 0 ? a : a == 0x80000000 && b == ~0u ? 0 : (uint32_t)((int32_t)a % (int32_t)b);
    case 15: return b == 0 ? a : a % b;
    case 256: return a - b;
    case 261: return (uint32_t)((int32_t)a >> (b & 31));
    default: exit(126);
    }
}

static int is_taken(uint32_t word, uint32_t a, uint32_t b) {
    switch (word >> 12 & 7) {
    case 0: return a == b;
    case 1: return a != b;
    case 4: return (int32_t)a < (int32_t)b;
    case 5: return (int32_t)a >= (int32_t)b;
    case 6: return a < b;
    default: return a >= b;
    }
}

static uint32_t loaded(uint32_t word, const uint8_t *from) {
    switch (word >> 12 & 7) {
    case 0: return (int8_t)*from;
    case 1: return (int16_t)(from[0] | from[1] << 8);
    case 2: return word_at(from);
    case 4: return *from;
    default: return from[0] | from[1] << 8;
    }
}

static void run(uint32_t pc) {
    for (;;) {
        uint32_t word = word_at(memory + pc);
        uint32_t rd = word >> 7 & 31, a = x[word >> 15 & 31], b = x[word >> 20 & 31];
        uint32_t next = pc + 4;
        switch (word >> 2 & 31) {
        case 0x0d: x[rd] = word & 0xfffff000; break;
        case 0x05: x[rd] = pc + (word & 0xfffff000); break;
        case 0x1b:
            x[rd] = next;
            next = pc + (((int32_t)word >> 31 << 20) | (word & 0xff000) | (word >> 9 & 0x800) | (word >> 20 & 0x7fe));
            break;
        case 0x19:
            x[rd] = next;
            next = (a + ((int32_t)word >> 20)) & ~1u;
            break;
        case 0x18:
            if (is_taken(word, a, b))
                next = pc + (((int32_t)word >> 31 << 12) | (word << 4 & 0x800) | (word >> 20 & 0x7e0) | (word >> 7 & 0x1e));
            break;
        case 0x00: x[rd] = loaded(word, memory + (uint32_t)(a + ((int32_t)word >> 20))); break;
        case 0x08: {
            uint8_t *to = memory + (uint32_t)(a + (((int32_t)word >> 25) * 32 + (int32_t)rd));
            switch (word >> 12 & 7) {
            case 0: *to = b; break;
            case 1: memcpy(to, &b, 2); break;
            default: memcpy(to, &b, 4);
            }
            break;
        }
        case 0x04: x[rd] = by_immediate(word, a); break;
        case 0x0c: x[rd] = by_register(word, a, b); break;
        case 0x03: break;
        case 0x1c: x[10] = call(); break;
        default: exit(126);
        }
        x[0] = 0;
        pc = next;
    }
}

int main(int words, char **argv) {
    static uint8_t image[100663296];
    FILE *file = words == 2 ? fopen(argv[1], "rb") : 0;
    if (!file || fread(image, 1, sizeof image, file) < 52) return 2;
    memory = mmap(0, SPACE, PROT_READ | PROT_WRITE, MAP_PRIVATE | MAP_ANONYMOUS | MAP_NORESERVE, -1, 0);
    if (memory == MAP_FAILED) return 2;
    for (int k = 0; k < image[44]; k++) {
        const uint8_t *header = image + 52 + 32 * k;
        memcpy(memory + word_at(header + 8), image + word_at(header + 4), word_at(header + 16));
    }
    run(word_at(image + 24));
}
