/* What the C tests share: facts that are counted, a row's width, and octets that show whether something wrote there. */
#ifndef FACTS_H
#define FACTS_H

#include <stdint.h>
#include <stdio.h>
#include <stdlib.h>
#include <string.h>

/* The test ends at the first fact that does not hold, with its line. */
#define HOLDS(fact)                                                      \
    do {                                                                 \
        facts += 1;                                                      \
        if (!(fact)) {                                                   \
            fprintf(stderr, "%s:%d: %s\n", __FILE__, __LINE__, #fact);   \
            exit(1);                                                     \
        }                                                                \
    } while (0)

static int facts;

/* The words of a row of the table. */
enum { ROW = 7 };

/* What the test itself returns. */
static inline int all_hold(void)
{
    printf("%d facts hold\n", facts);
    return 0;
}

/* What no function writes here: it shows which octets stayed. */
enum { UNTOUCHED = 0xEE };

static inline void fill(void *memory, size_t octets)
{
    memset(memory, UNTOUCHED, octets);
}

static inline int untouched(const void *memory, size_t from, size_t to)
{
    const uint8_t *octets = memory;
    for (size_t i = from; i < to; i++)
        if (octets[i] != UNTOUCHED)
            return 0;
    return 1;
}

/* The memory begins with these octets, and the rest of it, up to `size`, stayed. */
static inline int begins_with(const void *memory, size_t size, const void *octets, size_t count)
{
    return count <= size && memcmp(memory, octets, count) == 0 && untouched(memory, count, size);
}

#endif
