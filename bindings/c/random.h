/* Numbers that look random, and are the same in each run. */
#ifndef VERS_RANDOM_H
#define VERS_RANDOM_H

#include <stdint.h>

static uint64_t next(void) {
    static uint64_t seed = 88172645463325252u;
    seed ^= seed << 13;
    seed ^= seed >> 7;
    seed ^= seed << 17;
    return seed;
}

#endif
