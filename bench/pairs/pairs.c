/*
 * Pairs of a question and an answer that meets it, for `cudreth mark --pairs`, and what reading them alone takes.
 *
 * usage: pairs make FOLDER COUNT    writes so many pairs into FOLDER/text and FOLDER/bytes, and the lists FOLDER/text.list and bytes.list
 *        pairs read LIST            reads every file that the list names, as cudreth does, and prints how many bytes they have
 */
#include <fcntl.h>
#include <stdint.h>
#include <stdio.h>
#include <stdlib.h>
#include <string.h>
#include <unistd.h>

#define VARIABLES 12
#define NODES (VARIABLES + 1)
#define RECORDS 32

static void fail(const char *name)
{
    perror(name);
    exit(1);
}

static uint32_t state = 1;

static unsigned below(unsigned bound)
{
    state = state * 1664525 + 1013904223;
    return (state >> 16) % bound;
}

struct pair {
    uint8_t parent[NODES];
    uint8_t label[NODES];
    uint8_t records[RECORDS][4];
};

/* Variable v is on node v + 1. Records are of parents, of ancestors and of labels, and all are met. */
static void draw(struct pair *pair)
{
    memset(pair, 0, sizeof *pair);
    for (unsigned node = 1; node < NODES; node++) {
        pair->parent[node] = (uint8_t)(node == 1 ? 0 : 1 + below(node - 1));
        pair->label[node] = (uint8_t)('a' + below(26));
    }
    for (unsigned at = 0; at < RECORDS; at++) {
        uint8_t *record = pair->records[at];
        unsigned node = at == 0 ? NODES - 1 : 2 + below(NODES - 2); /* the first names the highest variable */
        unsigned above = pair->parent[node];
        record[0] = at % 3 == 0 ? 1 : at % 3 == 1 ? 3 : 8;
        while (record[0] == 3 && above > 1 && below(2))
            above = pair->parent[above];
        record[1] = (uint8_t)((record[0] == 8 ? node : above) - 1);
        record[2] = (uint8_t)(record[0] == 8 ? 0 : node - 1);
        record[3] = record[0] == 8 ? pair->label[node] : 0;
    }
}

static FILE *open_new(const char *folder, const char *form, const char *side, unsigned number, FILE *list)
{
    char name[512];
    snprintf(name, sizeof name, "%s/%s/%s%u", folder, form, side, number);
    FILE *file = fopen(name, "w");
    if (!file)
        fail(name);
    fprintf(list, "%s%s", name, *side == 'q' ? " " : "\n");
    return file;
}

static void put(FILE *file, int bytes, const char *word, const uint8_t record[4], unsigned numbers)
{
    if (bytes)
        fwrite(record, 1, 4, file);
    else if (record[0] == 8)
        fprintf(file, "%s %u %c\n", word, record[1], record[3]);
    else
        fprintf(file, numbers == 3 ? "%s %u %u %u\n" : "%s %u %u\n", word, record[1], record[2], record[3]);
}

static void put_pair(const struct pair *pair, const char *folder, const char *form, unsigned number, FILE *list)
{
    int bytes = strcmp(form, "bytes") == 0;
    FILE *file = open_new(folder, form, "q", number, list);
    for (unsigned at = 0; at < RECORDS; at++)
        put(file, bytes, pair->records[at][0] == 1 ? "child" : pair->records[at][0] == 3 ? "strictly-below" : "label", pair->records[at], 2);
    fclose(file);
    file = open_new(folder, form, "a", number, list);
    for (unsigned node = 0; node < NODES; node++)
        put(file, bytes, "node", (uint8_t[]){1, (uint8_t)node, pair->parent[node], pair->label[node]}, 3);
    for (unsigned variable = 0; variable < VARIABLES; variable++)
        put(file, bytes, "var", (uint8_t[]){2, (uint8_t)variable, (uint8_t)(variable + 1), 0}, 2);
    fclose(file);
}

static void make(const char *folder, unsigned count)
{
    const char *const forms[] = {"text", "bytes"};
    for (unsigned form = 0; form < 2; form++) {
        char name[512];
        snprintf(name, sizeof name, "%s/%s.list", folder, forms[form]);
        FILE *list = fopen(name, "w");
        if (!list)
            fail(name);
        state = 1;
        for (unsigned number = 0; number < count; number++) {
            struct pair pair;
            draw(&pair);
            put_pair(&pair, folder, forms[form], number, list);
        }
        fclose(list);
    }
}

static size_t read_file(const char *name)
{
    static char bytes[1 << 16];
    int file = open(name, O_RDONLY);
    if (file < 0)
        fail(name);
    size_t total = 0;
    ssize_t count;
    while ((count = read(file, bytes, sizeof bytes)) > 0)
        total += (size_t)count;
    close(file);
    return total;
}

static void read_all(const char *list)
{
    char question[256], answer[256];
    size_t total = 0;
    FILE *lines = fopen(list, "r");
    if (!lines)
        fail(list);
    while (fscanf(lines, "%255s %255s", question, answer) == 2)
        total += read_file(question) + read_file(answer);
    fclose(lines);
    printf("%zu\n", total);
}

int main(int count, char **words)
{
    if (count == 4 && strcmp(words[1], "make") == 0)
        make(words[2], (unsigned)atoi(words[3]));
    else if (count == 3 && strcmp(words[1], "read") == 0)
        read_all(words[2]);
    else
        return fprintf(stderr, "usage: pairs make FOLDER COUNT | pairs read LIST\n"), 2;
    return 0;
}
