/* What the tests here share: values compared with those wanted, and a verdict at the end. */
#ifndef COMPARE_H
#define COMPARE_H

#include "rondavitse.h"

#include <inttypes.h>
#include <stdio.h>
#include <stdlib.h>
#include <string.h>

static unsigned compared, differing;

static void same(const char *call, const char *field, uint64_t got, uint64_t wanted) {
    compared++;
    if (got != wanted) {
        differing++;
        printf("%s: %s is %" PRIX64 " in place of %" PRIX64 "\n", call, field, got, wanted);
    }
}

/* A flag's byte as it is: one that is neither 0 nor 1 must not pass for true. */
static inline uint64_t byte_of(const bool *flag) {
    unsigned char byte;
    memcpy(&byte, flag, 1);
    return byte;
}

static int verdict(void) {
    printf("%u values compared, %u differ\n", compared, differing);
    return differing == 0 ? EXIT_SUCCESS : EXIT_FAILURE;
}

#endif
