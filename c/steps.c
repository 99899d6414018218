/* What the program `steps` prints, from C: reads records from standard input, runs them from the empty table, and prints what the table then says. */
#include <inttypes.h>
#include <stdio.h>
#include "umbraconga.h"

/* One byte over the limit is enough to see that an input is too long. */
static uint8_t input[32769];
static uint64_t table[UMBRACONGA_TABLE_WORDS];

int main(void) {
    size_t length = fread(input, 1, sizeof input, stdin);
    uint64_t ran[3];
    umbraconga_empty(table);
    umbraconga_run(table, input, length, ran);
    printf("taken %" PRIu64 " packets %" PRIu64 " settled %s\n", ran[2], umbraconga_in_flight(table), umbraconga_settled(table) == 1 ? "yes" : "no");
    for (uint32_t session = 0; session < 32; session++) {
        uint64_t told[3];
        umbraconga_told(table, session, told);
        if (!told[0]) continue;
        if (told[2] == 0) printf("%" PRIu32 " none\n", session);
        else printf("%" PRIu32 " %" PRIu64 "/%" PRIu64 "\n", session, told[1], told[2]);
    }
    if (ran[0]) printf("refused %" PRIu64 " at %" PRIu64 "\n", ran[0], ran[1]);
    return 0;
}
