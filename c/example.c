#include <stdio.h>
#include "umbraconga.h"

int main(void) {
    const uint8_t records[] = {1, 0, 0, 0, 0, 10, 2, 0, 0, 0, 0, 100, 0, 0, 0, 0, 1, 0, 255, 255, 255, 255, 255, 255, 255};
    uint64_t nums[32], dens[32], places[32], report[4];
    umbraconga_calculate(records, sizeof records, nums, 32, dens, 32, places, 32, report);
    if (report[0] == 0) printf("%llu/%llu\n", (unsigned long long)nums[0], (unsigned long long)dens[0]);
    return (int)report[0];
}
