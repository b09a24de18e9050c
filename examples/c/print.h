// Prints numbers in decimal digits, with the calls of calls.h.

static void print_number(unsigned number) {
    char digits[10];
    unsigned place = sizeof digits;
    do {
        digits[--place] = '0' + number % 10;
        number /= 10;
    } while (number != 0);
    write_bytes(digits + place, sizeof digits - place);
}
