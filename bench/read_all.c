/* Reads a file in pieces of 64 KiB into a buffer that doubles, and prints how many bytes came: the
   yardstick for reading an input that is then refused. */
#include <stdio.h>
#include <stdlib.h>
#include <string.h>
#include <fcntl.h>
#include <unistd.h>

int main(int argc, char **argv) {
    if (argc != 2) return 2;
    int file = open(argv[1], O_RDONLY);
    if (file < 0) return 3;
    size_t room = 65536, length = 0;
    char *bytes = malloc(room), *piece = malloc(65536);
    if (!bytes || !piece) return 11;
    for (;;) {
        ssize_t count = read(file, piece, 65536);
        if (count < 0) return 3;
        if (count == 0) break;
        while (length + (size_t)count > room) {
            room *= 2;
            bytes = realloc(bytes, room);
            if (!bytes) return 11;
        }
        memcpy(bytes + length, piece, (size_t)count);
        length += (size_t)count;
    }
    printf("%zu\n", length);
    return 0;
}
