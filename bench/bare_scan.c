/* The least that a reader of exchange texts does with a byte: it is looked at once, one state tells
   strings from the rest, and the marks are counted. The yardstick of reading speed. Prints the
   seconds of the fastest of three passes, and the marks. Compile with gcc -O2. */
#include <stdio.h>
#include <stdlib.h>
#include <time.h>

static double seconds(void) {
    struct timespec now;
    clock_gettime(CLOCK_MONOTONIC, &now);
    return (double)now.tv_sec + 1e-9 * (double)now.tv_nsec;
}

static unsigned long marks_of(const unsigned char *bytes, long size) {
    unsigned long marks = 0;
    int in_string = 0;
    for (long i = 0; i < size; i++) {
        unsigned char byte = bytes[i];
        if (in_string) {
            if (byte == '\'') in_string = 0;
        } else if (byte == '\'') {
            in_string = 1;
        } else if (byte == '(' || byte == ')' || byte == ',' || byte == ';' || byte == '=') {
            marks++;
        }
    }
    return marks;
}

int main(int argc, char **argv) {
    FILE *file = argc == 2 ? fopen(argv[1], "rb") : NULL;
    if (!file) return 1;
    fseek(file, 0, SEEK_END);
    long size = ftell(file);
    rewind(file);
    unsigned char *bytes = malloc((size_t)size);
    if (!bytes || fread(bytes, 1, (size_t)size, file) != (size_t)size) return 1;
    fclose(file);
    double best = 1e9;
    unsigned long marks = 0;
    for (int turn = 0; turn < 3; turn++) {
        double start = seconds();
        marks = marks_of(bytes, size);
        double took = seconds() - start;
        if (took < best) best = took;
    }
    printf("%.4f %lu\n", best, marks);
    return 0;
}
