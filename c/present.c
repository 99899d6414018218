/* What the program `present` writes, from C: reads records from standard input, runs them from the empty table, and writes the records of the table
 * that stays to standard output. */
#include <stdio.h>
#include "umbraconga.h"

/* One byte over the limit is enough to see that an input is too long. */
static uint8_t input[32769];
static uint64_t table[UMBRACONGA_TABLE_WORDS];
static uint8_t output[UMBRACONGA_RECORDS_MOST];

int main(void) {
    size_t length = fread(input, 1, sizeof input, stdin);
    uint64_t ran[3], written[3];
    umbraconga_empty(table);
    umbraconga_run(table, input, length, ran);
    umbraconga_records(table, output, sizeof output, written);
    fwrite(output, 1, (size_t)written[2], stdout);
    return 0;
}
