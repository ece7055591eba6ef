/* A plain interpreter of RV32IM images, to measure against: one switch, each word decoded at each step. With -DCOUNT_STEPS it tells at the end of the
   image, in a line on the error stream, how many steps that took. */
#include <stdint.h>
#include <stdio.h>
#include <stdlib.h>
#include <string.h>

struct segment { uint32_t base, size, flags; uint8_t *bytes; };

static struct segment segments[16];
static int count;
static uint64_t steps;

static uint8_t *at(uint32_t address, uint32_t size, uint32_t right) {
    for (int k = 0; k < count; k++) {
        struct segment *s = &segments[k];
        if (address - s->base < s->size)
            return (s->flags & right) && s->size - (address - s->base) >= size ? s->bytes + (address - s->base) : 0;
    }
    return 0;
}

static void fault(const char *kind, uint32_t pc) {
    fprintf(stderr, "fault %s at %08x\n", kind, pc);
    exit(126);
}

static uint32_t alu(uint32_t f3, uint32_t alternative, uint32_t a, uint32_t b) {
    switch (f3) {
    case 0: return alternative ? a - b : a + b;
    case 1: return a << (b & 31);
    case 2: return (int32_t)a < (int32_t)b;
    case 3: return a < b;
    case 4: return a ^ b;
    case 5: return alternative ? (uint32_t)((int32_t)a >> (b & 31)) : a >> (b & 31);
    case 6: return a | b;
    default: return a & b;
    }
}

static uint32_t multiply(uint32_t f3, uint32_t a, uint32_t b) {
    switch (f3) {
    case 0: return a * b;
    case 1: return (uint64_t)((int64_t)(int32_t)a * (int32_t)b) >> 32;
    case 2: return (uint64_t)((int64_t)(int32_t)a * (int64_t)b) >> 32;
    case 3: return (uint64_t)a * b >> 32;
    case 4: return b == 0 ? ~0u : a == 0x80000000 && b == ~0u ? a : (uint32_t)((int32_t)a / (int32_t)b);
    case 5: return b == 0 ? ~0u : a / b;
    case 6: return b == 0 ? a : a == 0x80000000 && b == ~0u ? 0 : (uint32_t)((int32_t)a % (int32_t)b);
    default: return b == 0 ? a : a % b;
    }
}

static int taken(uint32_t f3, uint32_t a, uint32_t b, uint32_t pc) {
    switch (f3) {
    case 0: return a == b;
    case 1: return a != b;
    case 4: return (int32_t)a < (int32_t)b;
    case 5: return (int32_t)a >= (int32_t)b;
    case 6: return a < b;
    case 7: return a >= b;
    default: fault("Illegal", pc); return 0;
    }
}

static void run(uint32_t pc) {
    uint32_t x[32] = {0};
    for (;;) {
#ifdef COUNT_STEPS
        steps++;
#endif
        uint8_t *from = pc % 4 ? 0 : at(pc, 4, 1);
        if (!from) fault("Fetch", pc);
        uint32_t w, rd, f3, a, b, next = pc + 4, value = 0;
        int writes = 1;
        memcpy(&w, from, 4);
        rd = w >> 7 & 31, f3 = w >> 12 & 7, a = x[w >> 15 & 31], b = x[w >> 20 & 31];
        int32_t imm = (int32_t)w >> 20;
        switch (w & 127) {
        case 0x37: value = w & 0xfffff000; break;
        case 0x17: value = pc + (w & 0xfffff000); break;
        case 0x6f:
            value = next;
            next = pc + (((int32_t)w >> 31 << 20) | (w & 0xff000) | (w >> 9 & 0x800) | (w >> 20 & 0x7fe));
            break;
        case 0x67: value = next, next = (a + imm) & ~1u; break;
        case 0x63:
            writes = 0;
            if (taken(f3, a, b, pc))
                next = pc + (((int32_t)w >> 31 << 12) | (w << 4 & 0x800) | (w >> 20 & 0x7e0) | (w >> 7 & 0x1e));
            break;
        case 0x03: {
            uint32_t size = 1u << (f3 & 3);
            uint8_t *p = (a + imm) % size ? 0 : at(a + imm, size, 4);
            if (!p) fault("Load", pc);
            memcpy(&value, p, size);
            if (f3 == 0) value = (int8_t)value;
            if (f3 == 1) value = (int16_t)value;
            break;
        }
        case 0x23: {
            uint32_t size = 1u << (f3 & 3), to = a + ((imm & ~31) | rd);
            uint8_t *p = to % size ? 0 : at(to, size, 2);
            if (!p) fault("Store", pc);
            memcpy(p, &b, size);
            writes = 0;
            break;
        }
        case 0x13: value = alu(f3, f3 == 5 && w >> 30, a, imm); break;
        case 0x33: value = w >> 25 == 1 ? multiply(f3, a, b) : alu(f3, w >> 30, a, b); break;
        case 0x0f: writes = 0; break;
        case 0x73:
            if (w != 0x73) fault("Break", pc);
            rd = 10;
            if (x[17] == 93) {
                if (steps) fprintf(stderr, "%llu steps\n", (unsigned long long)steps);
                exit(x[10] & 255);
            }
            else if (x[17] == 64 && x[12] && at(x[11], x[12], 4))
                fwrite(at(x[11], x[12], 4), 1, value = x[12], x[10] == 2 ? stderr : stdout);
            else if (x[17] == 63 && x[12] && at(x[11], x[12], 2))
                value = fread(at(x[11], x[12], 2), 1, x[12], stdin);
            break;
        default: fault("Illegal", pc);
        }
        if (writes && rd) x[rd] = value;
        pc = next;
    }
}

static uint32_t word(const uint8_t *p) { return p[0] | p[1] << 8 | p[2] << 16 | (uint32_t)p[3] << 24; }

int main(int words, char **argv) {
    static uint8_t image[100663296];
    FILE *file = words == 2 ? fopen(argv[1], "rb") : 0;
    if (!file || fread(image, 1, sizeof image, file) < 52) return 2;
    count = image[44];
    for (int k = 0; k < count && k < 16; k++) {
        const uint8_t *h = image + 52 + 32 * k;
        struct segment s = {word(h + 8), word(h + 20), word(h + 24), calloc(word(h + 20) + 1, 1)};
        memcpy(s.bytes, image + word(h + 4), word(h + 16));
        segments[k] = s;
    }
    run(word(image + 24));
}
