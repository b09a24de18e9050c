// Multiplies two matrices of small numbers, 64 by 64, and prints the sum of the product's rows, each times its number.
#include "calls.h"
#include "print.h"

enum { SIDE = 64 };

static int left[SIDE][SIDE], right[SIDE][SIDE], product[SIDE][SIDE];

static void fill(void) {
    for (int row = 0; row < SIDE; row++) {
        for (int column = 0; column < SIDE; column++) {
            left[row][column] = (row * 3 + column) % 10;
            right[row][column] = (row + column * 7) % 13 - 4;
        }
    }
}

static int entry(int row, int column) {
    int sum = 0;
    for (int at = 0; at < SIDE; at++) sum += left[row][at] * right[at][column];
    return sum;
}

int main(void) {
    unsigned sum = 0;
    fill();
    for (int row = 0; row < SIDE; row++) {
        for (int column = 0; column < SIDE; column++) product[row][column] = entry(row, column);
    }
    for (int row = 0; row < SIDE; row++) {
        for (int column = 0; column < SIDE; column++) sum += (row + 1) * product[row][column];
    }
    print_number(sum);
    write_bytes("\n", 1);
    return 0;
}
