// The header as a C++ program meets it.
#include "../desk/galhoveia.h"
#include "../desk/galhoveia.h"

#include <stdio.h>

int main()
{
    uint8_t memory[GALHOVEIA_MEMORY_BYTES];
    uint8_t record[GALHOVEIA_RECORD_BYTES];
    uint64_t value = 99;

    if (galhoveia_fresh(memory, sizeof memory, record, sizeof record, 8, &value) != GALHOVEIA_OPTIONS || value != 8
        || galhoveia_fresh(memory, sizeof memory, record, sizeof record, 7, &value) != GALHOVEIA_DONE || value != 0
        || record[GALHOVEIA_RECORD_OPTIONS] != 7) {
        printf("0 passed, 1 failed\n");
        return 1;
    }
    printf("1 passed, 0 failed\n");
    return 0;
}
