/*
 * The load of an exam day: 40,000 sheets marked in one run. The question has the most records there can be, and every sheet has a tree
 * of its own of 64 nodes. Each sheet is made right or with one known fault, so that every result is known before it is marked.
 */
#define _POSIX_C_SOURCE 199309L
#include <inttypes.h>
#include <stdio.h>
#include <string.h>
#include <time.h>

#include "cudreth.h"

#define SHEETS 40000
#define RECORDS (CUDRETH_CONSTRAINTS_BYTES / CUDRETH_RECORD_BYTES)
#define SHEET_BYTES ((CUDRETH_NODES + CUDRETH_VARIABLES) * CUDRETH_RECORD_BYTES)

static uint64_t state = 40000;

/* A number from 0 to limit - 1, the same ones in every run. */
static uint32_t draw(uint32_t limit)
{
    state = state * 6364136223846793005u + 1442695040888963407u;
    return (uint32_t)(state >> 33) % limit;
}

static void put(uint8_t *record, int a, int b, int c, int d)
{
    record[0] = (uint8_t)a;
    record[1] = (uint8_t)b;
    record[2] = (uint8_t)c;
    record[3] = (uint8_t)d;
}

/* Variable 0 is the document node; each other variable k is labelled 'a' + k and stands k steps below it, on a path: record 0 is root, records 1 to
 * 15 the steps, record 16 is root again, records 17 to 31 the labels; the rest say below and strictly below of pairs on the path. */
static void set_question(uint8_t *question)
{
    int at = 0;
    put(question, CUDRETH_ROOT, 0, 0, 0);
    for (at = 1; at < 16; at++)
        put(question + 4 * at, CUDRETH_CHILD, at - 1, at, 0);
    put(question + 4 * at++, CUDRETH_ROOT, 0, 0, 0);
    for (; at < 32; at++)
        put(question + 4 * at, CUDRETH_LABEL, at - 16, 0, 'a' + at - 16);
    while (at < RECORDS)
        for (int y = 1; y < 16; y++)
            for (int x = 0; x < y && at < RECORDS; x++, at++)
                put(question + 4 * at, at % 2 ? CUDRETH_BELOW : CUDRETH_STRICTLY_BELOW, x, y, 0);
}

/* Nodes 0 to 15 are the path, node 0 blank; the others hang anywhere below node 1. */
static void draw_sheet(uint8_t *sheet)
{
    for (int node = 0; node < CUDRETH_NODES; node++) {
        int parent = node == 0 ? 0 : node < 16 ? node - 1 : 1 + (int)draw((uint32_t)node - 1);
        put(sheet + 4 * node, CUDRETH_NODE, node, parent, node == 0 ? 0 : node < 16 ? 'a' + node : (int)draw(256));
    }
    for (int variable = 0; variable < CUDRETH_VARIABLES; variable++)
        put(sheet + 4 * (CUDRETH_NODES + variable), CUDRETH_PLACE, variable, variable, 0);
}

static uint64_t unmet(int kind, uint64_t position)
{
    return (uint64_t)CUDRETH_UNMET << 48 | (uint64_t)kind << 32 | position;
}

static uint64_t refused(uint64_t question)
{
    return (uint64_t)CUDRETH_REFUSED << 48 | question;
}

/* Puts the fault of this sheet in and tells what the marker must say. Every second sheet has none. */
static uint64_t put_fault_in(uint8_t *sheet, size_t *length, int number)
{
    int k = 1 + (int)draw(15);
    switch (number % 16) {
    case 1: /* another label on the node of k */
        sheet[4 * k + 3] ^= 0x80;
        return unmet(CUDRETH_LABEL, 16 + (uint64_t)k);
    case 3: /* k on the node of its parent */
        sheet[4 * (CUDRETH_NODES + k) + 2]--;
        return unmet(CUDRETH_CHILD, (uint64_t)k);
    case 5: /* variable 0 not on the root */
        sheet[4 * CUDRETH_NODES + 2] = (uint8_t)k;
        return unmet(CUDRETH_ROOT, 0);
    case 7: /* some bytes lost */
        *length -= 1 + draw(3);
        return refused(8);
    case 9: /* no such kind of record */
        sheet[4 * draw(CUDRETH_NODES)] = 3;
        return refused(9);
    case 11: /* the nodes lost */
        *length -= 4 * CUDRETH_NODES;
        memmove(sheet, sheet + 4 * CUDRETH_NODES, *length);
        return refused(10);
    case 13: /* a node its own parent, a label on node 0, or a second child of it */
        if (k % 3 == 0)
            sheet[4 * k + 2] = (uint8_t)k;
        else if (k % 3 == 1)
            sheet[3] = (uint8_t)k;
        else
            sheet[4 * k + 2] = 0;
        return refused(11);
    case 15: /* a place on a node that is not there */
        sheet[4 * (CUDRETH_NODES + k) + 2] = CUDRETH_NODES;
        return refused(12);
    default:
        return CUDRETH_MET;
    }
}

static double seconds(void)
{
    struct timespec now;
    clock_gettime(CLOCK_MONOTONIC, &now);
    return (double)now.tv_sec + (double)now.tv_nsec / 1e9;
}

int main(void)
{
    static uint8_t question[CUDRETH_CONSTRAINTS_BYTES];
    static uint8_t sheets[SHEETS][SHEET_BYTES];
    static size_t lengths[SHEETS];
    static uint64_t expected[SHEETS], results[SHEETS];

    set_question(question);
    for (int number = 0; number < SHEETS; number++) {
        draw_sheet(sheets[number]);
        lengths[number] = SHEET_BYTES;
        expected[number] = put_fault_in(sheets[number], &lengths[number], number);
    }

    double start = seconds();
    for (int number = 0; number < SHEETS; number++)
        results[number] = cudreth_mark(question, sizeof question, sheets[number], lengths[number]);
    double took = seconds() - start;

    int counted[4] = {0};
    for (int number = 0; number < SHEETS; number++) {
        if (results[number] != expected[number]) {
            printf("sheet %d: expected %#" PRIx64 ", marked %#" PRIx64 "\n", number, expected[number], results[number]);
            return 1;
        }
        counted[cudreth_verdict(results[number])]++;
    }
    printf("load: %d sheets of 64 nodes marked against 256 records in %.1f ms, %.2f us a sheet: %d met, %d unmet, %d refused, all as expected\n",
           SHEETS, took * 1e3, took * 1e6 / SHEETS, counted[CUDRETH_MET], counted[CUDRETH_UNMET], counted[CUDRETH_REFUSED]);
    return 0;
}
