/* What the commands share: exit status, options, complaints. */
#ifndef COMMAND_H
#define COMMAND_H

#include <stdbool.h>
#include <stddef.h>
#include <stdint.h>

#include "buffer.h"

/* Exit status. The first four are the archive's verdicts. */
enum status {
    FOUND = 0,    /* tree or met; or all was written */
    NOT = 1,      /* none or unmet */
    SPENT = 2,    /* or interrupted */
    REFUSED = 3,
    UNUSABLE = 4, /* wrong use, or a file that cannot be read or written */
};

/* Options, one bit each, so that a command can say which it takes. */
enum option {
    TAKES_ALLOWANCE = 1,
    TAKES_DRAW = 2,
    TAKES_BYTES = 4,
    TAKES_SVG = 8,
    TAKES_PAIRS = 16,
};

struct arguments {
    uint32_t allowance;
    bool draw;
    bool bytes;
    const char *svg;
    const char *pairs;
    char **names; /* what is no option, in order */
    int count;
};

/* Options and names behind a command's word; false, with the complaint printed, where they are wrong. */
bool arguments_read(struct arguments *arguments, unsigned takes, const char *command, int count, char **words);

/* Of a command that reads one file: its name, or "-" if none is given; NULL, with the complaint printed, if there are more. */
const char *only_name(const struct arguments *arguments, const char *command);

/* A line on standard error, "cudreth: " in front. */
void complain(const char *format, ...) __attribute__((format(printf, 1, 2)));
/* The same of a file, whose name stands in front. */
void complain_of(const char *name, const char *words);

/* Puts out what a command prints. From the first failure on nothing goes out any more, and `finish` reports it. */
void put_out(struct buffer *buffer);
bool output_failed(void);
/* The exit status: the one given, or UNUSABLE, with a complaint, if something that was put out was lost. */
int finish(int status);

int solve_command(int count, char **words);
int mark_command(int count, char **words);
int paths_command(int count, char **words);
int xml_command(int count, char **words);
int help_command(int count, char **words);
int version_command(int count, char **words);

#endif
