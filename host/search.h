/* The archive's search, watched on a terminal, and ended by an interrupt. */
#ifndef SEARCH_H
#define SEARCH_H

#include <stdbool.h>
#include <stddef.h>
#include <stdint.h>

#include "cudreth.h"

struct search {
    const uint8_t *records;
    size_t length;
    uint32_t allowance;
    uint8_t answer[CUDRETH_ANSWER_BYTES];
    uint64_t result;
    bool interrupted; /* then there is no result, */
    uint32_t known;   /* but the search is known to enter more choices than this */
};

void search_run(struct search *search);

#endif
