/*
 * cudreth: solves and marks questions on trees, from the command line. Every verdict is that of the proved functions in libcapi.a; here files are
 * read and results are printed. docs/FORMAT.md, "The text form" and "The command", says what; cudreth.1 is the manual.
 *
 *   solve, mark, convert, help    the commands
 *   command                       what they share: options, exit status, standard output
 *   load                          a file of any form, as the bytes that the archive is asked about
 *   text, place                   the text form; where in a file a refusal is
 *   search                        the solver, watched and interrupted
 *   tree                          drawings
 *   file, buffer                  files whole, text whole
 *
 * A new kind of record is a line in text.c; a new number of a refusal needs nothing, but for its place in place.c; a new function of the
 * archive is a command here, in command.h, help.c and the manual.
 */
#include <signal.h>
#include <string.h>

#include "command.h"
#include "file.h"

static const struct {
    const char *word;
    int (*run)(int count, char **words);
} commands[] = {
    {"solve", solve_command},
    {"mark", mark_command},
    {"paths", paths_command},
    {"xml", xml_command},
    {"help", help_command},
    {"--help", help_command},
    {"-h", help_command},
    {"version", version_command},
    {"--version", version_command},
};
#define COMMANDS (sizeof commands / sizeof commands[0])

static int run(int count, char **words)
{
    if (count < 2) {
        complain("a command is needed; see cudreth help");
        return UNUSABLE;
    }
    if (count == 3 && strcmp(words[2], "--help") == 0)
        return help_command(1, words + 1);
    for (size_t at = 0; at < COMMANDS; at++)
        if (strcmp(commands[at].word, words[1]) == 0)
            return commands[at].run(count - 2, words + 2);
    complain("unknown command '%s'; see cudreth help", words[1]);
    return UNUSABLE;
}

int main(int count, char **words)
{
    keep_standard_descriptors();
    signal(SIGPIPE, SIG_IGN); /* a closed output and a file that may not grow are reported, and not the end */
    signal(SIGXFSZ, SIG_IGN);
    return finish(run(count, words));
}
