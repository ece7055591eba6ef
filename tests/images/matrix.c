/* Products of matrices of words, quotients and remainders. */
#include "machine.h"

#define SIDE 96

static int first[SIDE][SIDE], second[SIDE][SIDE], product[SIDE][SIDE];

static void multiply(void) {
    for (int row = 0; row < SIDE; row++)
        for (int column = 0; column < SIDE; column++) {
            int sum = 0;
            for (int k = 0; k < SIDE; k++) sum += first[row][k] * second[k][column];
            product[row][column] = sum;
        }
}

int main(void) {
    for (int row = 0; row < SIDE; row++)
        for (int column = 0; column < SIDE; column++) {
            first[row][column] = (int)next_random() >> 20;
            second[row][column] = (int)next_random() >> 20;
        }
    word sum = 0;
    for (word round = 0; round < SCALE; round++) {
        multiply();
        for (int row = 0; row < SIDE; row++)
            for (int column = 0; column < SIDE; column++) {
                int divisor = second[row][column] | 1;
                sum += (word)(product[row][column] / divisor) ^ (word)(product[row][column] % divisor);
                first[row][column] = product[row][column] >> 12;
            }
    }
    write_number("matrix", sum);
    return 0;
}
