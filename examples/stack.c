/*
 * Measures stack. cudreth_solve: in a thread with the header's CUDRETH_STACK bytes, once without a choice, once with 105 alternatives
 * open at the end (15 variables above a sixteenth: one chain join for each pair), once with 113, of parent, chain and sibling joins, and
 * once with 79, of chain joins and at last a document join. From each of the three it tells what the most that can be open,
 * n * (n - 1) = 240, would need, and fails if CUDRETH_STACK is not enough.
 * cudreth_paths: on the texts of 1,024 bytes that nest deepest or go on longest, and fails if one needs more than CUDRETH_PATHS_STACK.
 * cudreth_xml_write and cudreth_xml_read: on the trees of 64 nodes that are deepest or widest and on their texts, and the reader on texts
 * that nest deeper than a tree may, up to 1 MiB of them; fails if one needs more than CUDRETH_XML_STACK.
 * cudreth_draw: from the longest list, granted and refused; fails if it needs more than 2 KiB beyond what a thread has in use without it.
 */
#define _POSIX_C_SOURCE 200809L
#include <inttypes.h>
#include <pthread.h>
#include <stdio.h>
#include <string.h>

#include "cudreth.h"

#define MOST_OPEN (CUDRETH_VARIABLES * (CUDRETH_VARIABLES - 1))
/* Lent to a thread that reads or writes texts, so that what is used beyond CUDRETH_PATHS_STACK or CUDRETH_XML_STACK is measured too. */
#define STACK (1024 * 1024)
/* A text for cudreth_xml_read that no stack has room for, if each <a> takes some. */
#define LONG_TEXT (1024 * 1024)
/* What the header says of cudreth_draw. */
#define DRAW_STACK 2048

static uint8_t stack[STACK] __attribute__((aligned(4096)));
static uint64_t result;

static uint8_t question[4 * 16];
static size_t question_length;

static uint8_t text[LONG_TEXT];
static size_t text_length;

static uint8_t nodes[CUDRETH_NODES_BYTES];

static struct cudreth_centre centres[CUDRETH_CENTRES];
static uint32_t amount;

static void *solve(void *unused)
{
    static uint8_t answer[CUDRETH_ANSWER_BYTES];
    result = cudreth_solve(question, question_length, answer, sizeof answer, UINT32_MAX);
    return unused;
}

static void *paths(void *unused)
{
    static uint8_t records[CUDRETH_RECORDS_BYTES];
    result = cudreth_paths(text, text_length, records, sizeof records);
    return unused;
}

static void *xml_write(void *unused)
{
    static uint8_t lent[CUDRETH_XML_BYTES];
    result = cudreth_xml_write(nodes, sizeof nodes, lent, sizeof lent);
    return unused;
}

static void *xml_read(void *unused)
{
    static uint8_t lent[CUDRETH_NODES_BYTES];
    result = cudreth_xml_read(text, text_length, lent, sizeof lent);
    return unused;
}

static void *draw(void *unused)
{
    result = cudreth_draw(centres, CUDRETH_CENTRES, UINT32_MAX, CUDRETH_CENTRES - 1, amount);
    return unused;
}

static void *nothing(void *unused)
{
    result = 0;
    return unused;
}

/* Bytes that changed of the stack of a thread that runs, its own among them; all of them if it does not end in `expected`. */
static size_t used(void *(*run)(void *), size_t length, uint64_t expected)
{
    pthread_attr_t attributes;
    pthread_t thread;
    size_t unused = 0;

    memset(stack, 0x5c, length);
    if (pthread_attr_init(&attributes) || pthread_attr_setstack(&attributes, stack, length)
        || pthread_create(&thread, &attributes, run, NULL) || pthread_join(thread, NULL)
        || pthread_attr_destroy(&attributes) || (result & ~(0xffffULL << 32)) != expected)
        return length;
    while (unused < length && stack[unused] == 0x5c)
        unused++;
    return length - unused;
}

/* Variables 0 to above - 1 are above one variable, and there are some records more; a tree with so many alternatives open. */
static const struct deep {
    const char *joins;
    uint8_t above, one;
    size_t more;
    uint8_t records[4][4];
    size_t open;
} deep[] = {
    {"chain joins", 15, 15, 0, {{0}}, 105},
    {"parent, chain and sibling joins", 12, 13, 4,
     {{CUDRETH_BEFORE, 13, 15, 0}, {CUDRETH_BEFORE, 15, 14, 0}, {CUDRETH_BELOW, 12, 15, 0}, {CUDRETH_CHILD, 0, 12, 0}}, 113},
    {"chain joins and a document join", 13, 13, 2, {{CUDRETH_ROOT, 15, 0, 0}, {CUDRETH_CHILD, 15, 14, 0}}, 79},
};

static void ask(const uint8_t *record)
{
    memcpy(question + question_length, record, CUDRETH_RECORD_BYTES);
    question_length += CUDRETH_RECORD_BYTES;
}

static int solving(void)
{
    /* the verdict is CUDRETH_TREE, the count low */
    size_t without = used(solve, CUDRETH_STACK, 0), most = 0;

    printf("stack: %zu bytes with the thread's own and no choice", without);
    for (size_t i = 0; i < sizeof deep / sizeof *deep; i++) {
        const struct deep *d = &deep[i];

        question_length = 0;
        for (uint8_t x = 0; x < d->above; x++) {
            const uint8_t record[] = {CUDRETH_BELOW, x, d->one, 0};
            ask(record);
        }
        for (size_t j = 0; j < d->more; j++)
            ask(d->records[j]);
        size_t with = used(solve, CUDRETH_STACK, d->open);
        size_t all = without + (with - without) * MOST_OPEN / d->open;
        printf(", %zu with %zu alternatives of %s open, so %zu with %d", with, d->open, d->joins, all, MOST_OPEN);
        most = all > most ? all : most;
    }
    printf("\n");
    return most <= CUDRETH_STACK;
}

static int within(const char *function, size_t most, size_t limit)
{
    printf("\n");
    if (most > limit)
        printf("stack of %s: %zu bytes are more than %zu\n", function, most, limit);
    return most <= limit;
}

/* Head, `open` as often as `bytes` allow, middle, `close` as often, tail. */
struct shape {
    const char *name, *head, *open, *middle, *close, *tail;
    uint64_t expected;
    size_t bytes;
};

static void add(const char *piece)
{
    memcpy(text + text_length, piece, strlen(piece));
    text_length += strlen(piece);
}

static size_t fill(const struct shape *s)
{
    size_t fixed = strlen(s->head) + strlen(s->middle) + strlen(s->tail);
    size_t times = (s->bytes - fixed) / (strlen(s->open) + strlen(s->close));

    text_length = 0;
    add(s->head);
    for (size_t i = 0; i < times; i++)
        add(s->open);
    add(s->middle);
    for (size_t i = 0; i < times; i++)
        add(s->close);
    add(s->tail);
    return times;
}

/* The most that `run` uses on the texts of these shapes. */
static size_t most_used(void *(*run)(void *), const struct shape *shapes, size_t number)
{
    size_t most = 0;

    for (size_t i = 0; i < number; i++) {
        size_t times = fill(&shapes[i]), bytes = used(run, STACK, shapes[i].expected);
        printf("%s %zu on %zu %s", i ? "," : "", bytes, times, shapes[i].name);
        most = bytes > most ? bytes : most;
    }
    return most;
}

#define REFUSED_BY(question) ((uint64_t)CUDRETH_REFUSED << 48 | (question))
#define MANY REFUSED_BY(CUDRETH_Q_TEXT_VARIABLES)
#define NO_FORM REFUSED_BY(CUDRETH_Q_TEXT_FORM)
#define NO_TREE REFUSED_BY(CUDRETH_Q_XML_FORM)

static const struct shape paths_shapes[] = {
    {"line of / alone", "", "/", "", "", "\n", CUDRETH_WRITTEN, 2},
    {"nested brackets", "", "self::*[", "/", "]", "\n", MANY, CUDRETH_TEXT_BYTES},
    {"brackets that are never closed", "", "self::*[", "", "", "\n", NO_FORM, CUDRETH_TEXT_BYTES},
    {"nested from the root", "", "/self::*[", "/", "]", "\n", MANY, CUDRETH_TEXT_BYTES},
    {"nested at second brackets", "", "self::*[/][", "/", "]", "\n", MANY, CUDRETH_TEXT_BYTES},
    {"nested at second steps", "", "self::*/self::*[", "/", "]", "\n", MANY, CUDRETH_TEXT_BYTES},
    {"nested in the eighth line", "/\n/\n/\n/\n/\n/\n/\n", "self::*[", "/", "]", "\n", MANY, CUDRETH_TEXT_BYTES},
    {"[/] again and again", "self::*", "[/]", "", "", "\n", CUDRETH_WRITTEN, CUDRETH_TEXT_BYTES},
    {"steps", "", "self::*/", "self::*", "", "\n", MANY, CUDRETH_TEXT_BYTES},
};

/* 62 times <a> to </a> around a leaf is the deepest tree, in 438 bytes; 62 leaves in one element are the widest, in 255. */
static const struct shape xml_shapes[] = {
    {"element", "", "<a/>", "", "", "", CUDRETH_WRITTEN, 4},
    {"elements around a leaf", "", "<a>", "<b/>", "</a>", "", CUDRETH_WRITTEN, 438},
    {"leaves in one element", "<a>", "<b/>", "</a>", "", "", CUDRETH_WRITTEN, 255},
    {"elements with a leaf each", "", "<a><b/>", "", "</a>", "", CUDRETH_WRITTEN, 31 * 11},
    {"elements around a leaf, one too many", "", "<a>", "<b/>", "</a>", "", NO_TREE, 438 + 7},
    {"elements that are never closed", "", "<a>", "", "", "", NO_TREE, 62 * 3},
    {"that are never closed", "", "<a>", "", "", "", NO_TREE, LONG_TEXT},
    {"around a leaf", "", "<a>", "<b/>", "</a>", "", NO_TREE, LONG_TEXT},
    {"with a leaf each", "", "<a><b/>", "", "</a>", "", NO_TREE, LONG_TEXT},
    {"leaves in one element", "<a>", "<b/>", "</a>", "", "", NO_TREE, LONG_TEXT},
};

static int reading_paths(void)
{
    printf("stack of cudreth_paths, bytes with the thread's own:");
    return within("cudreth_paths", most_used(paths, paths_shapes, sizeof paths_shapes / sizeof *paths_shapes), CUDRETH_PATHS_STACK);
}

static int reading_xml(void)
{
    printf("stack of cudreth_xml_read, bytes with the thread's own:");
    return within("cudreth_xml_read", most_used(xml_read, xml_shapes, sizeof xml_shapes / sizeof *xml_shapes), CUDRETH_XML_STACK);
}

/* The parent of node v from 2 on. */
static int inside(int v) { return v - 1; }
static int beside(int v) { return (void)v, 1; }
static int with_a_leaf(int v) { return v % 2 ? v - 2 : v - 1; }

static const struct tree {
    const char *name;
    int (*parent)(int v);
} trees[] = {
    {"63 elements inside one another", inside},
    {"62 leaves in one element", beside},
    {"31 elements with a leaf each inside one another", with_a_leaf},
};

static int writing_xml(void)
{
    size_t most = 0;

    printf("stack of cudreth_xml_write, bytes with the thread's own:");
    for (size_t i = 0; i < sizeof trees / sizeof *trees; i++) {
        for (int v = 0; v < CUDRETH_NODES; v++) {
            const uint8_t node[] = {CUDRETH_NODE, (uint8_t)v, (uint8_t)(v < 2 ? 0 : trees[i].parent(v)), v ? 'a' : 0};
            memcpy(nodes + CUDRETH_RECORD_BYTES * v, node, sizeof node);
        }
        size_t bytes = used(xml_write, STACK, CUDRETH_WRITTEN);
        printf("%s %zu on %s", i ? "," : "", bytes, trees[i].name);
        most = bytes > most ? bytes : most;
    }
    return within("cudreth_xml_write", most, CUDRETH_XML_STACK);
}

static int drawing(void)
{
    const struct cudreth_centre fresh = {1, 2, 0};
    size_t own = used(nothing, STACK, 0);

    for (size_t i = 0; i < CUDRETH_CENTRES; i++)
        centres[i] = fresh;
    amount = 2;
    size_t granted = used(draw, STACK, CUDRETH_GRANTED), refused = used(draw, STACK, REFUSED_BY(CUDRETH_Q_CAP));
    printf("stack of cudreth_draw, bytes with the thread's own: %zu without a draw, %zu granted, %zu refused", own, granted, refused);
    return within("cudreth_draw", granted > refused ? granted : refused, own + DRAW_STACK);
}

int main(void)
{
    int solved = solving(), paths_read = reading_paths(), xml_written = writing_xml(), xml_was_read = reading_xml(), drawn = drawing();
    return solved && paths_read && xml_written && xml_was_read && drawn ? 0 : 1;
}
