/*
 * Holds the archive to the known verdicts and counts of the benchmark files (bench/inputs/COUNTS.txt), each solved in a thread with the
 * header's CUDRETH_STACK bytes. usage: counts FOLDER
 */
#define _POSIX_C_SOURCE 200809L
#include <pthread.h>
#include <stdio.h>
#include <string.h>

#include "cudreth.h"

static uint8_t stack[CUDRETH_STACK] __attribute__((aligned(4096)));
static uint8_t file[CUDRETH_CONSTRAINTS_BYTES + 1];
static size_t length;
static uint64_t result;

static void *solve(void *unused)
{
    uint8_t answer[CUDRETH_ANSWER_BYTES];
    (void)unused;
    result = cudreth_solve(file, length, answer, sizeof answer, UINT32_MAX);
    return NULL;
}

static int solve_in_thread(void)
{
    pthread_attr_t attributes;
    pthread_t thread;
    return pthread_attr_init(&attributes) || pthread_attr_setstack(&attributes, stack, sizeof stack)
        || pthread_create(&thread, &attributes, solve, NULL) || pthread_join(thread, NULL);
}

static int read_file(const char *folder, const char *name)
{
    char path[512];
    snprintf(path, sizeof path, "%s/%s", folder, name);
    FILE *f = fopen(path, "rb");
    if (!f)
        return 1;
    length = fread(file, 1, sizeof file, f);
    return fclose(f);
}

int main(int argc, char **argv)
{
    char path[512], name[128], verdict[8];
    unsigned long count;
    int files = 0;

    if (argc != 2)
        return 2;
    snprintf(path, sizeof path, "%s/COUNTS.txt", argv[1]);
    FILE *counts = fopen(path, "r");
    if (!counts)
        return 2;
    while (fscanf(counts, "%127s %7s %lu%*[^\n]", name, verdict, &count) == 3) {
        uint64_t expected = strcmp(verdict, "tree") ? CUDRETH_NONE : CUDRETH_TREE;
        if (read_file(argv[1], name) || solve_in_thread() || cudreth_verdict(result) != expected || cudreth_count(result) != count) {
            printf("counts: %s is not %s %lu\n", name, verdict, count);
            return 1;
        }
        files++;
    }
    fclose(counts);
    printf("counts: %d benchmark files have their verdict and count, each in a thread of %d bytes\n", files, CUDRETH_STACK);
    return files == 35 ? 0 : 1;
}
