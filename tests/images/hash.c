/* Hashes of a buffer: FNV-1a by bytes, CRC-32 by a table, and rotations of words. */
#include "machine.h"

static byte buffer[65536];
static word table[256];

static word crc(void) {
    word value = ~0u;
    for (word k = 0; k < sizeof buffer; k++) value = table[(value ^ buffer[k]) & 255] ^ value >> 8;
    return ~value;
}

static word fnv(word start) {
    word value = start;
    for (word k = 0; k < sizeof buffer; k++) value = (value ^ buffer[k]) * 16777619u;
    return value;
}

static word rotations(word start) {
    word a = start, b = 0x9e3779b9u;
    const word *words = (const word *)buffer;
    for (word k = 0; k < sizeof buffer / 4; k++) {
        a += words[k];
        b ^= a << 7 | a >> 25;
        a = a * 5 + (b >> 3);
    }
    return a ^ b;
}

int main(void) {
    for (word k = 0; k < 256; k++) {
        word value = k;
        for (int bit = 0; bit < 8; bit++) value = value & 1 ? 0xedb88320u ^ value >> 1 : value >> 1;
        table[k] = value;
    }
    for (word k = 0; k < sizeof buffer; k++) buffer[k] = next_random() >> 24;
    word value = 2166136261u;
    for (word round = 0; round < 4u * SCALE; round++) {
        value = fnv(value) ^ crc();
        value = rotations(value);
        buffer[round % sizeof buffer] = value;
    }
    write_number("hash", value);
    return value & 63;
}
