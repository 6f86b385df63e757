/* Reads the numbers of vectors out of a text of statements by one plain loop over its bytes, and keeps each as one byte.
 *
 * usage: parse ROUNDS FILE
 *
 * A vector stands between `[` and `]`. It prints the number of elements, their sum, and the least processor time of a
 * round in seconds.
 */
#include <stdio.h>
#include <stdlib.h>
#include <time.h>

static double seconds(void) {
    struct timespec now;
    clock_gettime(CLOCK_PROCESS_CPUTIME_ID, &now);
    return now.tv_sec + now.tv_nsec * 1e-9;
}

static size_t parse(const char *text, size_t length, signed char *elements) {
    size_t count = 0;
    int inside = 0, negative = 0, number = 0;
    for (size_t at = 0; at < length; at++) {
        char byte = text[at];
        if (byte == '[') {
            inside = 1, negative = 0, number = 0;
        } else if (!inside) {
            continue;
        } else if (byte == ',' || byte == ']') {
            elements[count++] = (signed char)(negative ? -number : number);
            inside = byte == ',', negative = 0, number = 0;
        } else if (byte == '-') {
            negative = 1;
        } else {
            number = 10 * number + (byte - '0');
        }
    }
    return count;
}

int main(int argc, char **argv) {
    if (argc != 3) {
        return 1;
    }
    FILE *file = fopen(argv[2], "rb");
    if (!file) {
        return 1;
    }
    fseek(file, 0, SEEK_END);
    size_t length = (size_t)ftell(file);
    rewind(file);
    char *text = malloc(length);
    signed char *elements = malloc(length);
    if (!text || !elements || fread(text, 1, length, file) != length) {
        return 1;
    }
    size_t count = 0;
    double best = 1e9;
    for (int round = atoi(argv[1]); round > 0; round--) {
        double start = seconds();
        count = parse(text, length, elements);
        double spent = seconds() - start;
        best = spent < best ? spent : best;
    }
    long sum = 0;
    for (size_t at = 0; at < count; at++) {
        sum += elements[at];
    }
    printf("%zu\n%ld\n%.9f\n", count, sum, best);
    return 0;
}
