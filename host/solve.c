#include <errno.h>
#include <inttypes.h>
#include <string.h>
#include <unistd.h>

#include "command.h"
#include "load.h"
#include "search.h"
#include "tree.h"

/* Whether the picture takes the place of the text on standard output. */
static bool picture_alone(const struct arguments *arguments) { return arguments->svg && strcmp(arguments->svg, "-") == 0; }

static int put_picture(const char *name, const uint8_t *answer, size_t length)
{
    struct buffer picture = {0};
    tree_svg(&picture, answer, length);
    if (strcmp(name, "-") == 0) {
        put_out(&picture);
    } else if (!file_write(name, &picture)) {
        complain_of(name, strerror(errno));
        return UNUSABLE;
    }
    buffer_free(&picture);
    return FOUND;
}

static int put_tree(const struct search *search, const struct arguments *arguments)
{
    struct buffer text = {0};
    size_t length = cudreth_written(search->result);
    if (arguments->bytes) {
        buffer_add(&text, search->answer, length);
    } else {
        buffer_print(&text, "tree %" PRIu32 "\n", cudreth_count(search->result));
        if (arguments->draw)
            tree_draw(&text, search->answer, length);
        else
            text_print_all(&text, ANSWER, search->answer, length);
    }
    if (!picture_alone(arguments))
        put_out(&text);
    buffer_free(&text);
    return arguments->svg ? put_picture(arguments->svg, search->answer, length) : FOUND;
}

/* A verdict without a tree; where bytes or a picture are to go out it would be neither. */
static void put_verdict(const char *word, uint32_t count, const struct arguments *arguments)
{
    struct buffer text = {0};
    buffer_print(&text, "%s %" PRIu32 "\n", word, count);
    if (arguments->bytes || picture_alone(arguments))
        (void)buffer_write(&text, STDERR_FILENO);
    else
        put_out(&text);
    buffer_free(&text);
}

static int interrupted(const struct search *search, const struct arguments *arguments, const char *name)
{
    put_verdict("spent", search->known, arguments);
    complain_of(name, "interrupted");
    return SPENT;
}

static int solve(struct loaded *question, const struct arguments *arguments)
{
    /* The watching thread may outlive this call. */
    static struct search search;
    search = (struct search){.records = question->records, .length = question->length, .allowance = arguments->allowance};
    search_run(&search);
    if (search.interrupted)
        return interrupted(&search, arguments, question->file.name);
    switch (cudreth_verdict(search.result)) {
    case CUDRETH_TREE:
        return put_tree(&search, arguments);
    case CUDRETH_NONE:
        put_verdict("none", cudreth_count(search.result), arguments);
        return NOT;
    case CUDRETH_SPENT:
        put_verdict("spent", cudreth_count(search.result), arguments);
        return SPENT;
    default:
        refuse_question(question, cudreth_question(search.result));
        return complain_refused(question);
    }
}

int solve_command(int count, char **words)
{
    static struct loaded question;
    struct arguments arguments;
    if (!arguments_read(&arguments, TAKES_ALLOWANCE | TAKES_DRAW | TAKES_BYTES | TAKES_SVG, "solve", count, words))
        return UNUSABLE;
    const char *name = only_name(&arguments, "solve");
    if (!name)
        return UNUSABLE;
    if (arguments.draw && arguments.bytes) {
        complain("solve: --draw and --bytes are two ways to print a tree; see cudreth help solve");
        return UNUSABLE;
    }
    int status = load_or_complain(&question, load_question, name);
    return status == FOUND ? solve(&question, &arguments) : status;
}
