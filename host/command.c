#include "command.h"

#include <errno.h>
#include <stdarg.h>
#include <stdio.h>
#include <string.h>
#include <unistd.h>

#define ALLOWANCE 1000000 /* as the program solve has it */

static void complain_line(struct buffer *line)
{
    buffer_add(line, "\n", 1);
    (void)buffer_write(line, STDERR_FILENO); /* there is nowhere left to say that this failed */
    buffer_free(line);
}

void complain(const char *format, ...)
{
    char words[512];
    va_list values;
    va_start(values, format);
    vsnprintf(words, sizeof words, format, values);
    va_end(values);
    struct buffer line = {0};
    buffer_print(&line, "cudreth: %s", words);
    complain_line(&line);
}

void complain_of(const char *name, const char *words)
{
    struct buffer line = {0};
    buffer_print(&line, "cudreth: ");
    buffer_name(&line, name);
    buffer_print(&line, ": %s", words);
    complain_line(&line);
}

/* The error that the first lost output had; 0 as long as none is lost. */
static int output_error;

void put_out(struct buffer *buffer)
{
    if (!output_error && !buffer_write(buffer, STDOUT_FILENO))
        output_error = errno;
    buffer->length = 0;
}

bool output_failed(void) { return output_error != 0; }

int finish(int status)
{
    if (!output_error && close(STDOUT_FILENO) != 0)
        output_error = errno;
    if (!output_error)
        return status;
    complain("standard output: %s", strerror(output_error));
    return UNUSABLE;
}

static bool wrong(const char *command, const char *words, const char *word)
{
    complain("%s: %s '%s'; see cudreth help %s", command, words, word, command);
    return false;
}

static bool allowance_of(const char *word, uint32_t *allowance)
{
    uint64_t number = 0;
    for (const char *digit = word; *digit; digit++) {
        if (*digit < '0' || *digit > '9')
            return false;
        number = 10 * number + (uint64_t)(*digit - '0');
        if (number > UINT32_MAX)
            return false;
    }
    *allowance = (uint32_t)number;
    return *word != '\0';
}

static const struct {
    const char *word;
    enum option option;
    bool valued;
} options[] = {
    {"--allowance", TAKES_ALLOWANCE, true},
    {"--draw", TAKES_DRAW, false},
    {"--bytes", TAKES_BYTES, false},
    {"--svg", TAKES_SVG, true},
    {"--pairs", TAKES_PAIRS, true},
};
#define OPTIONS (sizeof options / sizeof options[0])

static bool take(struct arguments *arguments, enum option option, const char *command, const char *value)
{
    switch (option) {
    case TAKES_ALLOWANCE:
        return allowance_of(value, &arguments->allowance) || wrong(command, "no allowance from 0 to 4294967295:", value);
    case TAKES_DRAW: arguments->draw = true; break;
    case TAKES_BYTES: arguments->bytes = true; break;
    case TAKES_SVG: arguments->svg = value; break;
    case TAKES_PAIRS: arguments->pairs = value; break;
    }
    return true;
}

/* One option, whose value is the next word or stands behind '='. `at` goes to the last word that was used. */
static bool read_option(struct arguments *arguments, unsigned takes, const char *command, int count, char **words, int *at)
{
    char *word = words[*at];
    size_t length = strcspn(word, "=");
    size_t found = 0;
    while (found < OPTIONS && !(strlen(options[found].word) == length && strncmp(options[found].word, word, length) == 0))
        found++;
    if (found == OPTIONS || !(takes & options[found].option))
        return wrong(command, "unknown option", word);
    const char *value = word[length] == '=' ? word + length + 1 : NULL;
    if (!options[found].valued && value)
        return wrong(command, "a value for an option that has none:", word);
    if (options[found].valued && !value) {
        if (*at + 1 == count)
            return wrong(command, "no value for", word);
        value = words[++*at];
    }
    return take(arguments, options[found].option, command, value);
}

bool arguments_read(struct arguments *arguments, unsigned takes, const char *command, int count, char **words)
{
    *arguments = (struct arguments){.allowance = ALLOWANCE, .names = words};
    bool only_names = false;
    for (int at = 0; at < count; at++) {
        char *word = words[at];
        if (only_names || word[0] != '-' || word[1] == '\0')
            words[arguments->count++] = word; /* names move to the front, over options that were read */
        else if (strcmp(word, "--") == 0)
            only_names = true;
        else if (!read_option(arguments, takes, command, count, words, &at))
            return false;
    }
    return true;
}

const char *only_name(const struct arguments *arguments, const char *command)
{
    if (arguments->count > 1) {
        wrong(command, "one file too many:", arguments->names[1]);
        return NULL;
    }
    return arguments->count == 1 ? arguments->names[0] : "-";
}
