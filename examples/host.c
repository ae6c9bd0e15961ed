/*
 * A host program: solves the question of document 01's listing (M10), prints the tree and marks four candidates; solves and marks a question
 * in another order and with other numbers, one of siblings in order, one of the document node, one with capitals, and one with just enough
 * choices; reads one set as paths and solves it; writes a tree as XML and reads it back; solves for three centres with what each may draw; and lists what a refusal can say.
 * What it prints is held to examples/host.stdout. It is C99 and C++; host.rs is the same in Rust.
 */
#include <inttypes.h>
#include <stdbool.h>
#include <stdio.h>
#include <stdlib.h>
#include <string.h>

#include "cudreth.h"

static void print_answer(const uint8_t *answer, size_t length)
{
    for (size_t at = 0; at < length; at += CUDRETH_RECORD_BYTES) {
        const uint8_t *record = answer + at;
        if (record[0] == CUDRETH_NODE)
            printf("node %d %d %d\n", record[1], record[2], record[3]);
        else
            printf("var %d %d\n", record[1], record[2]);
    }
}

static void print_refused(uint32_t question)
{
    printf("refused %" PRIu32 ": %s\n", question, cudreth_question_words(question));
}

static void print_solved(uint64_t result, const uint8_t *answer)
{
    switch (cudreth_verdict(result)) {
    case CUDRETH_TREE:
        printf("tree %" PRIu32 "\n", cudreth_count(result));
        print_answer(answer, cudreth_written(result));
        break;
    case CUDRETH_NONE:
        printf("none %" PRIu32 "\n", cudreth_count(result));
        break;
    case CUDRETH_SPENT:
        printf("spent %" PRIu32 "\n", cudreth_count(result));
        break;
    default:
        print_refused(cudreth_question(result));
    }
}

static void print_marked(uint64_t result)
{
    switch (cudreth_verdict(result)) {
    case CUDRETH_MET:
        printf("met\n");
        break;
    case CUDRETH_UNMET:
        printf("unmet %" PRIu32 " %s\n", cudreth_unmet_position(result), cudreth_kind_words(cudreth_unmet_kind(result)));
        break;
    default:
        print_refused(cudreth_question(result));
    }
}

static void print_records(const uint8_t *records, size_t length)
{
    for (size_t at = 0; at < length; at += CUDRETH_RECORD_BYTES) {
        const uint8_t *record = records + at;
        printf("%s %d %d %d\n", cudreth_kind_words(record[0]), record[1], record[2], record[3]);
    }
}

static void print_read(uint64_t result, const uint8_t *records)
{
    if (cudreth_verdict(result) == CUDRETH_WRITTEN)
        print_records(records, cudreth_written(result));
    else
        print_refused(cudreth_question(result));
}

static void print_xml(uint64_t result, const uint8_t *text)
{
    if (cudreth_verdict(result) == CUDRETH_WRITTEN)
        printf("%.*s\n", (int)cudreth_written(result), (const char *)text);
    else
        print_refused(cudreth_question(result));
}

static void print_nodes(uint64_t result, const uint8_t *nodes)
{
    if (cudreth_verdict(result) == CUDRETH_WRITTEN)
        print_answer(nodes, cudreth_written(result));
    else
        print_refused(cudreth_question(result));
}

/* How much was written to a buffer that was filled with 0xee, and how much of it is as it was. */
static void print_written(const uint8_t *buffer, size_t length, size_t written)
{
    size_t unchanged = written;
    while (unchanged < length && buffer[unchanged] == 0xee)
        unchanged++;
    printf("%zu bytes written, %zu left as they were\n", written, unchanged - written);
}

static const uint8_t listing[] = {
    CUDRETH_ROOT,   1, 0, 0,
    CUDRETH_CHILD,  1, 2, 0,
    CUDRETH_BELOW,  0, 2, 0,
    CUDRETH_DIFFER, 0, 1, 0,
};

/* M10: solved, and four answers to it marked. */
static void solve_and_mark(uint8_t *answer)
{
    printf("allowance 1: ");
    print_solved(cudreth_solve(listing, sizeof listing, answer, CUDRETH_ANSWER_BYTES, 1), answer);
    printf("buffer 135: ");
    print_solved(cudreth_solve(listing, sizeof listing, answer, CUDRETH_ANSWER_BYTES - 1, 1), answer);
    uint64_t solved = cudreth_solve(listing, sizeof listing, answer, CUDRETH_ANSWER_BYTES, UINT32_MAX);
    print_solved(solved, answer);
    size_t written = cudreth_written(solved);
    print_written(answer, CUDRETH_ANSWER_BYTES, written);

    printf("that answer: ");
    print_marked(cudreth_mark(listing, sizeof listing, answer, written));
    const uint8_t wrong[] = {
        CUDRETH_NODE,  0, 0, 0,
        CUDRETH_NODE,  1, 0, 0,
        CUDRETH_PLACE, 0, 0, 0,
        CUDRETH_PLACE, 1, 0, 0,
        CUDRETH_PLACE, 2, 1, 0,
    };
    printf("0 and 1 on one node: ");
    print_marked(cudreth_mark(listing, sizeof listing, wrong, sizeof wrong));
    printf("the last byte lost: ");
    print_marked(cudreth_mark(listing, sizeof listing, answer, written - 1));
    printf("empty files: ");
    print_marked(cudreth_mark(listing, 0, answer, 0));
}

/* A question, the same from last record to first, and the same with variables 0 and 1 exchanged. */
static const uint8_t first_order[] = {
    CUDRETH_BELOW, 0, 1, 0,
    CUDRETH_BELOW, 1, 3, 0,
    CUDRETH_BELOW, 2, 3, 0,
};
static const uint8_t last_to_first[] = {
    CUDRETH_BELOW, 2, 3, 0,
    CUDRETH_BELOW, 1, 3, 0,
    CUDRETH_BELOW, 0, 1, 0,
};
static const uint8_t exchanged[] = {
    CUDRETH_BELOW, 1, 0, 0,
    CUDRETH_BELOW, 0, 3, 0,
    CUDRETH_BELOW, 2, 3, 0,
};
static const uint8_t upside_down[] = {
    CUDRETH_NODE,  0, 0, 0,
    CUDRETH_NODE,  1, 0, 0,
    CUDRETH_PLACE, 0, 1, 0,
    CUDRETH_PLACE, 1, 1, 0,
    CUDRETH_PLACE, 2, 1, 0,
    CUDRETH_PLACE, 3, 0, 0,
};

/* The order of the records matters to which of them is named as unmet, and to nothing else; another numbering to count and tree. */
static void solve_shuffled(uint8_t *answer, uint8_t *other)
{
    uint64_t solved = cudreth_solve(first_order, sizeof first_order, answer, CUDRETH_ANSWER_BYTES, UINT32_MAX);
    print_solved(solved, answer);
    uint64_t again = cudreth_solve(last_to_first, sizeof last_to_first, other, CUDRETH_ANSWER_BYTES, UINT32_MAX);
    bool same = again == solved && memcmp(other, answer, cudreth_written(solved)) == 0;
    printf("from last record to first: %s\n", same ? "the same verdict, count and bytes" : "another result");
    printf("0 and 1 exchanged: ");
    print_solved(cudreth_solve(exchanged, sizeof exchanged, answer, CUDRETH_ANSWER_BYTES, UINT32_MAX), answer);
    printf("3 above 2 and 1: ");
    print_marked(cudreth_mark(first_order, sizeof first_order, upside_down, sizeof upside_down));
    printf("from last record to first: ");
    print_marked(cudreth_mark(last_to_first, sizeof last_to_first, upside_down, sizeof upside_down));
}

/* Siblings in order: 0 waits for 3. Then before(0,1), marked with 0 on the second child and 1 on the first. */
static void solve_brothers(uint8_t *answer)
{
    const uint8_t question[] = {
        CUDRETH_BEFORE, 3, 0, 0,
        CUDRETH_DIFFER, 1, 2, 0,
    };
    print_solved(cudreth_solve(question, sizeof question, answer, CUDRETH_ANSWER_BYTES, UINT32_MAX), answer);
    const uint8_t pair[] = {
        CUDRETH_BEFORE, 0, 1, 0,
    };
    const uint8_t turned[] = {
        CUDRETH_NODE,  0, 0, 0,
        CUDRETH_NODE,  1, 0, 0,
        CUDRETH_NODE,  2, 1, 0,
        CUDRETH_NODE,  3, 1, 0,
        CUDRETH_PLACE, 0, 3, 0,
        CUDRETH_PLACE, 1, 2, 0,
    };
    printf("the second child before the first: ");
    print_marked(cudreth_mark(pair, sizeof pair, turned, sizeof turned));
}

/* The document node: variable 1 is below 2, its child. Then an answer whose document node has a name, and one with 0 on its child. */
static void solve_document(uint8_t *answer)
{
    const uint8_t question[] = {
        CUDRETH_ROOT,  0, 0, 0,
        CUDRETH_CHILD, 0, 2, 0,
    };
    print_solved(cudreth_solve(question, sizeof question, answer, CUDRETH_ANSWER_BYTES, UINT32_MAX), answer);
    const uint8_t named[] = {
        CUDRETH_NODE,  0, 0, 'a',
        CUDRETH_NODE,  1, 0, 0,
        CUDRETH_PLACE, 0, 0, 0,
        CUDRETH_PLACE, 1, 1, 0,
        CUDRETH_PLACE, 2, 1, 0,
    };
    printf("a name on the document node: ");
    print_marked(cudreth_mark(question, sizeof question, named, sizeof named));
    const uint8_t too_low[] = {
        CUDRETH_NODE,  0, 0, 0,
        CUDRETH_NODE,  1, 0, 0,
        CUDRETH_NODE,  2, 1, 0,
        CUDRETH_PLACE, 0, 1, 0,
        CUDRETH_PLACE, 1, 1, 0,
        CUDRETH_PLACE, 2, 2, 0,
    };
    printf("0 on its child: ");
    print_marked(cudreth_mark(question, sizeof question, too_low, sizeof too_low));
}

/* Capitals count as small letters: A and a are one label, and the tree has the small one. Then a tree drawn with A, and one with { for [. */
static void solve_capitals(uint8_t *answer)
{
    const uint8_t question[] = {
        CUDRETH_LABEL, 0, 0, 'A',
        CUDRETH_LABEL, 0, 0, 'a',
    };
    print_solved(cudreth_solve(question, sizeof question, answer, CUDRETH_ANSWER_BYTES, UINT32_MAX), answer);
    const uint8_t capital[] = {
        CUDRETH_NODE,  0, 0, 0,
        CUDRETH_NODE,  1, 0, 'A',
        CUDRETH_PLACE, 0, 1, 0,
    };
    printf("a capital drawn: ");
    print_marked(cudreth_mark(question, sizeof question, capital, sizeof capital));
    const uint8_t bracket[] = {
        CUDRETH_LABEL, 0, 0, '[',
    };
    const uint8_t brace[] = {
        CUDRETH_NODE,  0, 0, 0,
        CUDRETH_NODE,  1, 0, '{',
        CUDRETH_PLACE, 0, 1, 0,
    };
    printf("{ drawn for [: ");
    print_marked(cudreth_mark(bracket, sizeof bracket, brace, sizeof brace));
}

/* A set without a tree, in 8 choices: the second alternative of a chain join does not try 0 and 1 on one node once more, which would make 10. */
static void solve_overlap(uint8_t *answer)
{
    const uint8_t question[] = {
        CUDRETH_BELOW,          1, 2, 0,
        CUDRETH_STRICTLY_BELOW, 0, 2, 0,
        CUDRETH_BEFORE,         0, 3, 0,
        CUDRETH_BEFORE,         2, 3, 0,
    };
    for (uint32_t allowance = 7; allowance <= 8; allowance++) {
        printf("allowance %" PRIu32 ": ", allowance);
        print_solved(cudreth_solve(question, sizeof question, answer, CUDRETH_ANSWER_BYTES, allowance), answer);
    }
}

/* A node that both lines select: its records, then a tree that has it, as the node of variable 0. */
static void read_and_solve(uint8_t *records, uint8_t *answer)
{
    const char lines[] = "/child::a/descendant::c\nchild::b/child::c\n";
    const uint8_t *text = (const uint8_t *)lines;
    const size_t length = sizeof lines - 1;

    printf("%s", lines);
    uint64_t read = cudreth_paths(text, length, records, CUDRETH_RECORDS_BYTES);
    print_read(read, records);
    size_t written = cudreth_written(read);
    print_written(records, CUDRETH_RECORDS_BYTES, written);
    print_solved(cudreth_solve(records, written, answer, CUDRETH_ANSWER_BYTES, UINT32_MAX), answer);
    printf("the last byte lost: ");
    print_read(cudreth_paths(text, length - 1, records, CUDRETH_RECORDS_BYTES), records);
}

/* The length of an answer without its places, which XML has not. */
static size_t node_bytes(const uint8_t *answer, size_t length)
{
    size_t at = 0;
    while (at < length && answer[at] == CUDRETH_NODE)
        at += CUDRETH_RECORD_BYTES;
    return at;
}

/* What is refused: an answer with its places, a buffer of 511 bytes for a text, a text with a newline, a buffer of 255 bytes for nodes. */
static void refuse_xml(const uint8_t *answer, size_t length, uint8_t *text, size_t text_length, uint8_t *nodes)
{
    printf("places left on: ");
    print_xml(cudreth_xml_write(answer, length, text, CUDRETH_XML_BYTES), text);
    printf("buffer 511: ");
    print_xml(cudreth_xml_write(answer, node_bytes(answer, length), text, CUDRETH_XML_BYTES - 1), text);
    text[text_length] = '\n';
    printf("a newline at the end: ");
    print_nodes(cudreth_xml_read(text, text_length + 1, nodes, CUDRETH_NODES_BYTES), nodes);
    printf("buffer 255: ");
    print_nodes(cudreth_xml_read(text, text_length, nodes, CUDRETH_NODES_BYTES - 1), nodes);
}

/* A tree as XML and back. What is read is numbered in document order, the solver's tree by depth; written again it is the same text. */
static void write_and_read(uint8_t *answer, uint8_t *text, uint8_t *nodes)
{
    const uint8_t question[] = {
        CUDRETH_CHILD, 0, 1, 0,
        CUDRETH_CHILD, 0, 2, 0,
        CUDRETH_CHILD, 1, 3, 0,
        CUDRETH_LABEL, 0, 0, 'a',
        CUDRETH_LABEL, 2, 0, 'b',
        CUDRETH_LABEL, 3, 0, 'c',
    };
    uint64_t solved = cudreth_solve(question, sizeof question, answer, CUDRETH_ANSWER_BYTES, UINT32_MAX);
    print_solved(solved, answer);
    size_t length = cudreth_written(solved);
    uint64_t wrote = cudreth_xml_write(answer, node_bytes(answer, length), text, CUDRETH_XML_BYTES);
    print_xml(wrote, text);
    print_written(text, CUDRETH_XML_BYTES, cudreth_written(wrote));
    uint64_t read = cudreth_xml_read(text, cudreth_written(wrote), nodes, CUDRETH_NODES_BYTES);
    print_nodes(read, nodes);
    print_written(nodes, CUDRETH_NODES_BYTES, cudreth_written(read));

    refuse_xml(answer, length, text, cudreth_written(wrote), nodes);
    uint8_t drawn[] = {
        CUDRETH_NODE, 0, 0, 0,
        CUDRETH_NODE, 1, 0, 'A',
        CUDRETH_NODE, 2, 1, 'a',
    };
    printf("a capital drawn: ");
    print_xml(cudreth_xml_write(drawn, sizeof drawn, text, CUDRETH_XML_BYTES), text);
    drawn[sizeof drawn - 1] = '_';
    printf("_ drawn as a label: ");
    print_xml(cudreth_xml_write(drawn, sizeof drawn, text, CUDRETH_XML_BYTES), text);
    printf("what was read: ");
    print_xml(cudreth_xml_write(nodes, cudreth_written(read), text, CUDRETH_XML_BYTES), text);
}

/* Ten choices for three centres: guarantee, cap, drawn. Of the ten, four are nobody's guarantee. */
#define SESSION_CENTRES 3
#define SESSION_TOTAL 10
static const struct cudreth_centre session[SESSION_CENTRES] = {
    {2, 6, 0},
    {3, 5, 0},
    {1, 10, 0},
};

static bool draw(struct cudreth_centre *centres, uint32_t total, size_t centre, uint32_t amount)
{
    printf("centre %zu draws %" PRIu32 ": ", centre, amount);
    uint64_t result = cudreth_draw(centres, SESSION_CENTRES, total, centre, amount);
    if (cudreth_verdict(result) != CUDRETH_GRANTED) {
        print_refused(cudreth_question(result));
        return false;
    }
    printf("granted, %" PRIu32 " of at most %" PRIu32 "\n", centres[centre].drawn, centres[centre].cap);
    return true;
}

/* M10 with what the centre draws as its allowance. Choices that the search does not need are not given back. */
static void draw_and_solve(struct cudreth_centre *centres, size_t centre, uint32_t amount, uint8_t *answer)
{
    if (draw(centres, SESSION_TOTAL, centre, amount))
        print_solved(cudreth_solve(listing, sizeof listing, answer, CUDRETH_ANSWER_BYTES, amount), answer);
}

/* Centre 0 takes all four that are nobody's beside its guarantee; 2 and then 1 still get theirs. Then no such centre, and a total too small. */
static void share_session(struct cudreth_centre *centres, uint8_t *answer)
{
    draw_and_solve(centres, 0, 1, answer);
    draw_and_solve(centres, 0, 5, answer);
    draw_and_solve(centres, 0, 1, answer);
    draw_and_solve(centres, 2, 2, answer);
    draw_and_solve(centres, 2, 1, answer);
    draw_and_solve(centres, 1, 3, answer);
    draw_and_solve(centres, 3, 0, answer);
    printf("of 9, ");
    draw(centres, SESSION_TOTAL - 1, 0, 0);
    printf("drawn %" PRIu32 ", %" PRIu32 " and %" PRIu32 "\n", centres[0].drawn, centres[1].drawn, centres[2].drawn);
}

int main(void)
{
    printf("version %d\n", CUDRETH_VERSION);
    /* Lent from the heap, at their exact lengths, so that a memory checker sees every byte too far. */
    uint8_t *answer = (uint8_t *)malloc(CUDRETH_ANSWER_BYTES);
    uint8_t *other = (uint8_t *)malloc(CUDRETH_ANSWER_BYTES);
    uint8_t *records = (uint8_t *)malloc(CUDRETH_RECORDS_BYTES);
    uint8_t *text = (uint8_t *)malloc(CUDRETH_XML_BYTES);
    uint8_t *nodes = (uint8_t *)malloc(CUDRETH_NODES_BYTES);
    struct cudreth_centre *centres = (struct cudreth_centre *)malloc(sizeof session);
    if (!answer || !other || !records || !text || !nodes || !centres)
        return 1;
    memset(answer, 0xee, CUDRETH_ANSWER_BYTES);
    memset(records, 0xee, CUDRETH_RECORDS_BYTES);
    memset(text, 0xee, CUDRETH_XML_BYTES);
    memset(nodes, 0xee, CUDRETH_NODES_BYTES);
    memcpy(centres, session, sizeof session);

    solve_and_mark(answer);
    solve_shuffled(answer, other);
    solve_brothers(answer);
    solve_document(answer);
    solve_capitals(answer);
    solve_overlap(answer);
    read_and_solve(records, answer);
    write_and_read(answer, text, nodes);
    share_session(centres, answer);
    for (uint32_t number = CUDRETH_Q_CONSTRAINTS_LONG; number <= CUDRETH_Q_REMAINS; number++)
        print_refused(number);
    free(centres);
    free(nodes);
    free(text);
    free(records);
    free(other);
    free(answer);
    return 0;
}
