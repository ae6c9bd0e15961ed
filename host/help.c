/* The commands help and version. */
#include <string.h>

#include "command.h"
#include "cudreth.h"

static const char general[] =
    "usage: cudreth COMMAND ...\n"
    "\n"
    "  solve [OPTION...] [FILE]     find a tree that meets a question, or say that there is none\n"
    "  mark QUESTION ANSWER...      say of each answer whether it meets the question\n"
    "  mark --pairs LIST            the same of many questions, a question and an answer a line\n"
    "  paths [--bytes] [FILE]       write the records of a question set as XPath paths\n"
    "  xml [--bytes] [FILE]         write a tree as XML, and XML as a tree\n"
    "  help [COMMAND]               say more about a command\n"
    "  version                      print the version\n"
    "\n"
    "FILE is standard input if it is not given or is -. A question may be XPath paths, records as\n"
    "text or records as bytes, an answer records as text or as bytes: cudreth sees which it is.\n"
    "\n"
    "Exit status: 0 tree or met, 1 none or unmet, 2 spent, 3 refused, 4 wrong use or a file that\n"
    "cannot be read or written. The manual, man cudreth, has examples.\n";

static const char solve[] =
    "usage: cudreth solve [--allowance N] [--draw | --bytes] [--svg PICTURE] [FILE]\n"
    "\n"
    "Prints tree COUNT and a tree that meets the question, none COUNT if no tree of any size does,\n"
    "or spent COUNT if the search would enter more choices than it is allowed. What is printed of a\n"
    "tree is an answer that cudreth mark reads.\n"
    "\n"
    "  --allowance N    allow N choices, 0 to 4294967295 (default 1000000)\n"
    "  --draw           draw the tree: a line a node, indented, with its label and variables\n"
    "  --bytes          write the answer as bytes\n"
    "  --svg PICTURE    also draw the tree into a file that a browser opens; - is standard output\n"
    "\n"
    "On a terminal a long search shows how many choices it has entered; an interrupt ends it.\n";

static const char mark[] =
    "usage: cudreth mark QUESTION ANSWER...\n"
    "       cudreth mark --pairs LIST\n"
    "\n"
    "Prints a line for each answer: ANSWER: met, or unmet with the position from 0 and the kind of\n"
    "the first record that is not met, or refused with a number and why, or unread. The exit status\n"
    "is the highest of all.\n"
    "\n"
    "  --pairs LIST     mark many: each line of LIST names a question and an answer, parted by a tab,\n"
    "                   or by spaces if no name has one\n";

static const char paths[] =
    "usage: cudreth paths [--bytes] [FILE]\n"
    "\n"
    "Prints the records of a question that is set as XPath paths, up to eight, each a line as in\n"
    "child::a[descendant::b]/following-sibling::*. Variable 0 is the node that every line selects.\n"
    "\n"
    "  --bytes          write the records as bytes\n";

static const char xml[] =
    "usage: cudreth xml [--bytes] [FILE]\n"
    "\n"
    "Writes the tree of an answer as XML; places of variables are left out, and a blank is _. A file\n"
    "that begins with < is read back, and its node records are printed. There is no space and no\n"
    "newline between elements.\n"
    "\n"
    "  --bytes          write node records as bytes\n";

static const char help[] =
    "usage: cudreth help [COMMAND]\n"
    "\n"
    "Says what the commands are, or more about one.\n";

static const char version[] =
    "usage: cudreth version\n"
    "\n"
    "Prints the version, that of the header and the archive.\n";

static const struct {
    const char *command;
    const char *text;
} texts[] = {
    {"solve", solve}, {"mark", mark}, {"paths", paths}, {"xml", xml}, {"help", help}, {"version", version},
};
#define TEXTS (sizeof texts / sizeof texts[0])

static int put_text(const char *text)
{
    struct buffer buffer = {0};
    buffer_add(&buffer, text, strlen(text));
    put_out(&buffer);
    buffer_free(&buffer);
    return FOUND;
}

int help_command(int count, char **words)
{
    if (count == 0)
        return put_text(general);
    for (size_t at = 0; count == 1 && at < TEXTS; at++)
        if (strcmp(texts[at].command, words[0]) == 0)
            return put_text(texts[at].text);
    complain("help: no command '%s'; see cudreth help", words[count - 1]);
    return UNUSABLE;
}

int version_command(int count, char **words)
{
    if (count > 0) {
        complain("version: one word too many: '%s'; see cudreth help version", words[0]);
        return UNUSABLE;
    }
    struct buffer line = {0};
    buffer_print(&line, "cudreth %d\n", CUDRETH_VERSION);
    put_out(&line);
    buffer_free(&line);
    return FOUND;
}
