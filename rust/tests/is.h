/* Counts and prints what a call gives that it shouldn't. */
#include <stdint.h>
#include <stdio.h>

static int faults;
#define IS(call, wanted) \
    do { \
        uint32_t got = (call); \
        if (got != (wanted)) { \
            printf("%s:%d: %s gives %u\n", __FILE__, __LINE__, #call, got); \
            faults = 1; \
        } \
    } while (0)
