/* Prints the addresses of the instructions in a program body that can change one cell, one a line. */
#include "second.h"

#include <stdio.h>
#include <stdlib.h>

int main(int argc, char **argv)
{
    static uint8_t program[SECOND_PROGRAM_BYTES + 1]; /* one more, so that a longer file is seen to be longer */
    static uint8_t addresses[2 * SECOND_WORDS];
    uint64_t count = 0;
    uint64_t value;
    uint32_t refusal;
    size_t length;
    FILE *file;
    char *end;
    unsigned long cell;

    if (argc != 3) {
        fprintf(stderr, "usage: writers PROGRAM CELL\n");
        return 2;
    }
    cell = strtoul(argv[2], &end, 16);
    if (end == argv[2] || *end != '\0' || cell > UINT32_MAX) {
        fprintf(stderr, "writers: %s is no cell in hex\n", argv[2]);
        return 2;
    }
    file = fopen(argv[1], "rb");
    if (file == NULL) {
        perror(argv[1]);
        return 2;
    }
    length = fread(program, 1, sizeof program, file);
    if (ferror(file)) {
        perror(argv[1]);
        return 2;
    }
    fclose(file);
    refusal = second_list(program, length, (uint32_t)cell, addresses, sizeof addresses, &count, &value);
    if (refusal != 0) {
        fprintf(stderr, "writers: refused by %lu with %llu\n", (unsigned long)refusal, (unsigned long long)value);
        return 1;
    }
    for (uint64_t place = 0; place < count; place += 2)
        printf("%03X\n", (unsigned)addresses[place] << 8 | addresses[place + 1]);
    return fflush(stdout) == 0 ? EXIT_SUCCESS : EXIT_FAILURE;
}
