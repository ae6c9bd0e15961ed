#include <errno.h>
#include <inttypes.h>
#include <signal.h>
#include <stdio.h>
#include <stdlib.h>
#include <string.h>
#include <unistd.h>

#include "command.h"
#include "cudreth.h"
#include "load.h"
#include "place.h"

/* Lines are gathered up to so many bytes, since a write for each would take longer than marking does. */
#define GATHERED ((size_t)1 << 16)

struct marking {
    struct loaded question;
    struct loaded answer;
    struct buffer lines;
    bool terminal; /* then each line is shown at once */
    int status;    /* the highest so far */
    size_t unread;
};

static volatile sig_atomic_t interrupted;

static void stop(int signal)
{
    (void)signal;
    interrupted = 1;
}

/* An interrupt that was ignored, as in the background of a shell, stays ignored. */
static void catch_interrupts(void)
{
    struct sigaction action = {.sa_handler = stop}, before;
    sigemptyset(&action.sa_mask);
    sigaction(SIGTERM, &action, NULL);
    sigaction(SIGINT, &action, &before);
    if (before.sa_handler == SIG_IGN)
        sigaction(SIGINT, &before, NULL);
}

static void worst(struct marking *marking, int status)
{
    if (status > marking->status)
        marking->status = status;
}

static void end_line(struct marking *marking)
{
    buffer_add(&marking->lines, "\n", 1);
    if (marking->terminal || marking->lines.length >= GATHERED)
        put_out(&marking->lines);
}

static void print_unread(struct marking *marking, const char *name, const char *reason)
{
    buffer_print(&marking->lines, "unread: ");
    buffer_name(&marking->lines, name);
    buffer_print(&marking->lines, ": %s", reason);
    marking->unread++;
    worst(marking, UNUSABLE);
}

static void print_refused(struct marking *marking, const struct loaded *loaded)
{
    const char *within = loaded == &marking->question ? loaded->file.name : NULL;
    refusal_print(&marking->lines, &loaded->refusal, within);
    worst(marking, REFUSED);
}

/* The line of a question's text that a record comes from. */
static size_t line_of(const struct loaded *question, size_t record)
{
    const uint8_t *text = question->file.bytes;
    size_t length = question->file.length;
    if (question->form == PATHS)
        return place_line_of_paths(text, length, record);
    return text_spot(text, length, QUESTION, record, 0).line;
}

static void print_unmet(struct marking *marking, uint64_t result)
{
    const struct loaded *question = &marking->question;
    uint32_t position = cudreth_unmet_position(result);
    buffer_print(&marking->lines, "unmet %" PRIu32 " %s: ", position, cudreth_kind_words(cudreth_unmet_kind(result)));
    text_print(&marking->lines, QUESTION, question->records + position * CUDRETH_RECORD_BYTES);
    if (question->form != BYTES) {
        buffer_print(&marking->lines, " (");
        buffer_name(&marking->lines, question->file.name);
        buffer_print(&marking->lines, ", line %zu)", line_of(question, position));
    }
    worst(marking, NOT);
}

/* The question has been judged, so that what is refused here is the answer. */
static void print_marked(struct marking *marking)
{
    struct loaded *question = &marking->question, *answer = &marking->answer;
    uint64_t result = cudreth_mark(question->records, question->length, answer->records, answer->length);
    switch (cudreth_verdict(result)) {
    case CUDRETH_MET:
        buffer_print(&marking->lines, "met");
        break;
    case CUDRETH_UNMET:
        print_unmet(marking, result);
        break;
    default:
        refuse_answer(answer, cudreth_question(result), question);
        print_refused(marking, answer);
    }
}

/* One answer to the question that was loaded, or could not be. */
static void mark_answer(struct marking *marking, const char *question_reason, const char *name)
{
    const char *reason = load_answer(&marking->answer, name);
    buffer_name(&marking->lines, name);
    buffer_print(&marking->lines, ": ");
    if (question_reason)
        print_unread(marking, marking->question.file.name, question_reason);
    else if (reason)
        print_unread(marking, name, reason);
    else if (marking->question.refused)
        print_refused(marking, &marking->question);
    else if (marking->answer.refused)
        print_refused(marking, &marking->answer);
    else
        print_marked(marking);
    end_line(marking);
}

static const char *load_and_judge(struct marking *marking, const char *name)
{
    const char *reason = load_question(&marking->question, name);
    if (!reason && !marking->question.refused)
        judge_question(&marking->question);
    return reason;
}

static bool going_on(void) { return !interrupted && !output_failed(); }

static void mark_answers(struct marking *marking, const char *question, char **answers, int count)
{
    const char *reason = load_and_judge(marking, question);
    for (int at = 0; at < count && going_on(); at++)
        mark_answer(marking, reason, answers[at]);
}

/* Parts a line in two names, at its first tab or, if it has none, at its spaces; false if it has not two. */
static bool part(char *line, char **question, char **answer)
{
    char *tab = strchr(line, '\t');
    *question = tab ? line : line + strspn(line, " ");
    *answer = tab ? tab : *question + strcspn(*question, " ");
    if (**answer)
        *(*answer)++ = '\0';
    if (tab)
        return **question && **answer;
    *answer += strspn(*answer, " ");
    char *end = *answer + strcspn(*answer, " ");
    bool more = end[strspn(end, " ")] != '\0';
    *end = '\0';
    return **answer && !more;
}

/* Complaints stand behind the lines that are done. */
static void complain_of_list(struct marking *marking, const char *list, const char *words)
{
    put_out(&marking->lines);
    complain_of(list, words);
    worst(marking, UNUSABLE);
}

/* The end of a line, byte 10 or bytes 13 and 10; a byte 13 elsewhere is a name's. */
static void cut_end(char *line, size_t length)
{
    if (length == 0 || line[length - 1] != '\n')
        return;
    line[--length] = '\0';
    if (length > 0 && line[length - 1] == '\r')
        line[length - 1] = '\0';
}

static void mark_pair(struct marking *marking, const char *list, size_t number, char *line, size_t length)
{
    char *question, *answer;
    bool whole = strlen(line) == length; /* no name has a byte 0 */
    cut_end(line, length);
    if (whole && line[strspn(line, " \t")] == '\0')
        return;
    if (whole && part(line, &question, &answer)) {
        mark_answer(marking, load_and_judge(marking, question), answer);
    } else {
        char words[64];
        snprintf(words, sizeof words, "line %zu is not a question and an answer", number);
        complain_of_list(marking, list, words);
    }
}

static void mark_pairs(struct marking *marking, const char *list)
{
    bool standard = strcmp(list, "-") == 0 && take_standard_input();
    FILE *lines = standard ? stdin : fopen(list, "r");
    if (!lines) {
        complain_of_list(marking, list, strerror(errno));
        return;
    }
    char *line = NULL;
    size_t room = 0;
    ssize_t length;
    for (size_t number = 1; going_on() && (length = getline(&line, &room, lines)) >= 0; number++)
        mark_pair(marking, list, number, line, (size_t)length);
    if (ferror(lines))
        complain_of_list(marking, list, strerror(errno));
    free(line);
    fclose(lines);
}

/* Lines that are done go out, also where the rest is not. */
static int end_marking(struct marking *marking)
{
    put_out(&marking->lines);
    if (marking->unread > 0)
        complain("%zu %s not be read", marking->unread, marking->unread == 1 ? "pair could" : "pairs could");
    if (interrupted) {
        complain("interrupted");
        worst(marking, SPENT);
    }
    return marking->status;
}

int mark_command(int count, char **words)
{
    static struct marking marking;
    struct arguments arguments;
    if (!arguments_read(&arguments, TAKES_PAIRS, "mark", count, words))
        return UNUSABLE;
    if (arguments.pairs ? arguments.count > 0 : arguments.count < 2) {
        complain("mark: %s; see cudreth help mark", arguments.pairs ? "a list has its names in it" : "a question and an answer are needed");
        return UNUSABLE;
    }
    catch_interrupts();
    marking.terminal = isatty(STDOUT_FILENO);
    if (arguments.pairs)
        mark_pairs(&marking, arguments.pairs);
    else
        mark_answers(&marking, arguments.names[0], arguments.names + 1, arguments.count - 1);
    return end_marking(&marking);
}
