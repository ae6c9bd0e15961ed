#include "text.h"

#include <inttypes.h>
#include <string.h>

#include "cudreth.h"

/* How a record stands on a line: its word, and which of its bytes follow. Byte 3 is a label wherever it is used. */
struct shape {
    const char *line;
    const char *fields;
    uint8_t kind;
};

static const struct shape question_shapes[] = {
    {"child X Y", "12", CUDRETH_CHILD},
    {"below X Y", "12", CUDRETH_BELOW},
    {"strictly-below X Y", "12", CUDRETH_STRICTLY_BELOW},
    {"same X Y", "12", CUDRETH_SAME},
    {"differ X Y", "12", CUDRETH_DIFFER},
    {"root X", "1", CUDRETH_ROOT},
    {"leaf X", "1", CUDRETH_LEAF},
    {"label X LABEL", "13", CUDRETH_LABEL},
    {"before X Y", "12", CUDRETH_BEFORE},
    {NULL, NULL, 0},
};
static const struct shape answer_shapes[] = {
    {"node NUMBER PARENT LABEL", "123", CUDRETH_NODE},
    {"var VARIABLE NODE", "12", CUDRETH_PLACE},
    {NULL, NULL, 0},
};
/* What solve prints in front of a tree; no record. */
static const struct shape tree_shape = {"tree COUNT", "", 0};

static const struct shape *shapes_of(enum side side) { return side == QUESTION ? question_shapes : answer_shapes; }

static size_t word_length(const struct shape *shape) { return strcspn(shape->line, " "); }

/* A text, gone through line by line and in a line word by word. */
struct reader {
    const uint8_t *text;
    size_t length;
    size_t line; /* from 1; 0 before the first */
    size_t start;
    size_t end;  /* of the line's words: a comment and the line's end lie behind it */
    size_t next; /* the line behind this one */
    size_t at;
};

struct word {
    const uint8_t *bytes;
    size_t length;
    struct spot spot;
};

static const uint8_t byte_order_mark[] = {0xef, 0xbb, 0xbf};

static size_t front(const uint8_t *text, size_t length)
{
    bool marked = length >= sizeof byte_order_mark && memcmp(text, byte_order_mark, sizeof byte_order_mark) == 0;
    return marked ? sizeof byte_order_mark : 0;
}

static struct reader reader_of(const uint8_t *text, size_t length) { return (struct reader){.text = text, .length = length}; }

static bool next_line(struct reader *reader)
{
    if (reader->next >= reader->length)
        return false;
    reader->start = reader->next;
    reader->at = reader->line == 0 ? front(reader->text, reader->length) : reader->start;
    reader->line++;
    const uint8_t *newline = memchr(reader->text + reader->start, '\n', reader->length - reader->start);
    reader->end = newline ? (size_t)(newline - reader->text) : reader->length;
    reader->next = newline ? reader->end + 1 : reader->length;
    if (newline && reader->end > reader->at && reader->text[reader->end - 1] == '\r')
        reader->end--;
    const uint8_t *comment = memchr(reader->text + reader->at, '#', reader->end - reader->at);
    if (comment)
        reader->end = (size_t)(comment - reader->text);
    return true;
}

static bool is_blank(uint8_t byte) { return byte == ' ' || byte == '\t'; }

static bool next_word(struct reader *reader, struct word *word)
{
    while (reader->at < reader->end && is_blank(reader->text[reader->at]))
        reader->at++;
    size_t start = reader->at;
    while (reader->at < reader->end && !is_blank(reader->text[reader->at]))
        reader->at++;
    if (reader->at == start)
        return false;
    word->bytes = reader->text + start;
    word->length = reader->at - start;
    word->spot = (struct spot){reader->line, start - reader->start + 1};
    return true;
}

/* The first word of the next line that has one. */
static bool next_first_word(struct reader *reader, struct word *word)
{
    while (next_line(reader))
        if (next_word(reader, word))
            return true;
    return false;
}

static bool is_word_of(const struct shape *shape, const struct word *word)
{
    return word->length == word_length(shape) && memcmp(shape->line, word->bytes, word->length) == 0;
}

static const struct shape *shape_of(enum side side, const struct word *word)
{
    const struct shape *shape = shapes_of(side);
    while (shape->line && !is_word_of(shape, word))
        shape++;
    return shape->line ? shape : NULL;
}

/* A number of digits alone, at most `most`. */
static bool number_of(const struct word *word, uint64_t most, uint64_t *number)
{
    *number = 0;
    for (size_t at = 0; at < word->length; at++) {
        uint8_t byte = word->bytes[at];
        if (byte < '0' || byte > '9')
            return false;
        *number = 10 * *number + (byte - '0');
        if (*number > most)
            return false;
    }
    return true;
}

static bool is_letter(uint8_t byte) { return (byte >= 'a' && byte <= 'z') || (byte >= 'A' && byte <= 'Z'); }

static bool byte_of(const struct word *word, bool label, uint8_t *byte)
{
    uint64_t number;
    if (label && word->length == 1 && is_letter(word->bytes[0]))
        number = word->bytes[0];
    else if (!number_of(word, UINT8_MAX, &number))
        return false;
    *byte = (uint8_t)number;
    return true;
}

/* Complaints; each is an answer of false. */

static bool no_record(struct complaint *complaint, const struct word *word, enum side side)
{
    complaint->spot = word->spot;
    buffer_word(&complaint->words, word->bytes, word->length);
    buffer_print(&complaint->words, " is no record of %s", side == QUESTION ? "a question" : "an answer");
    return false;
}

static bool no_number(struct complaint *complaint, const struct word *word, bool label, uint64_t most)
{
    complaint->spot = word->spot;
    buffer_word(&complaint->words, word->bytes, word->length);
    buffer_print(&complaint->words, " is %s number from 0 to %" PRIu64, label ? "neither a letter nor a" : "no", most);
    return false;
}

static bool too_short(struct complaint *complaint, const struct word *last, const struct shape *shape)
{
    complaint->spot = (struct spot){last->spot.line, last->spot.column + last->length};
    buffer_print(&complaint->words, "the line is too short for %s", shape->line);
    return false;
}

static bool too_long(struct complaint *complaint, const struct word *word, const struct shape *shape)
{
    complaint->spot = word->spot;
    buffer_print(&complaint->words, "the line is too long for %s", shape->line);
    return false;
}

static bool line_ends(struct reader *reader, const struct shape *shape, struct complaint *complaint)
{
    struct word word;
    return !next_word(reader, &word) || too_long(complaint, &word, shape);
}

static bool read_record(struct reader *reader, struct word *word, enum side side, uint8_t *record, struct complaint *complaint)
{
    const struct shape *shape = shape_of(side, word);
    if (!shape)
        return no_record(complaint, word, side);
    memset(record, 0, CUDRETH_RECORD_BYTES);
    record[0] = shape->kind;
    for (const char *field = shape->fields; *field; field++) {
        bool label = *field == '3';
        if (!next_word(reader, word))
            return too_short(complaint, word, shape);
        if (!byte_of(word, label, record + (*field - '0')))
            return no_number(complaint, word, label, UINT8_MAX);
    }
    return line_ends(reader, shape, complaint);
}

static bool read_tree_line(struct reader *reader, struct word *word, struct complaint *complaint)
{
    uint64_t count;
    if (!next_word(reader, word))
        return too_short(complaint, word, &tree_shape);
    if (!number_of(word, UINT32_MAX, &count))
        return no_number(complaint, word, false, UINT32_MAX);
    return line_ends(reader, &tree_shape, complaint);
}

bool text_read(const uint8_t *text, size_t length, enum side side, uint8_t *records, size_t *written, struct complaint *complaint)
{
    struct reader reader = reader_of(text, length);
    struct word word;
    bool more = next_first_word(&reader, &word);
    *written = 0;
    if (more && side == ANSWER && is_word_of(&tree_shape, &word)) {
        if (!read_tree_line(&reader, &word, complaint))
            return false;
        more = next_first_word(&reader, &word);
    }
    for (; more; more = next_first_word(&reader, &word)) {
        if (!read_record(&reader, &word, side, records + *written, complaint))
            return false;
        *written += CUDRETH_RECORD_BYTES;
    }
    if (*written == 0 && length > 0) {
        complaint->spot = text_spot_at(text, length, length);
        buffer_print(&complaint->words, "there is no record in the text");
        return false;
    }
    return true;
}

struct spot text_spot_at(const uint8_t *text, size_t length, size_t at)
{
    struct spot spot = {1, 1};
    for (size_t before = 0; before < at && before < length; before++) {
        bool newline = text[before] == '\n';
        spot.line += newline;
        spot.column = newline ? 1 : spot.column + 1;
    }
    return spot;
}

struct spot text_spot(const uint8_t *text, size_t length, enum side side, size_t record, unsigned field)
{
    struct reader reader = reader_of(text, length);
    struct word word;
    bool more = next_first_word(&reader, &word);
    if (more && is_word_of(&tree_shape, &word))
        more = next_first_word(&reader, &word);
    for (; more && record > 0; record--)
        more = next_first_word(&reader, &word);
    if (!more)
        return text_spot_at(text, length, length);
    const struct shape *shape = shape_of(side, &word);
    for (const char *digit = shape ? shape->fields : ""; field > 0 && *digit; digit++) {
        if (!next_word(&reader, &word) || (unsigned)(*digit - '0') == field)
            break;
    }
    return word.spot;
}

bool text_is_paths(const uint8_t *text, size_t length)
{
    struct reader reader = reader_of(text, length);
    struct word word;
    return next_first_word(&reader, &word) && (memchr(word.bytes, '/', word.length) || memchr(word.bytes, ':', word.length));
}

void text_print(struct buffer *buffer, enum side side, const uint8_t *record)
{
    const struct shape *shape = shapes_of(side);
    while (shape->line && shape->kind != record[0])
        shape++;
    if (!shape->line)
        return;
    buffer_add(buffer, shape->line, word_length(shape));
    for (const char *field = shape->fields; *field; field++) {
        uint8_t byte = record[*field - '0'];
        if (side == QUESTION && *field == '3' && is_letter(byte))
            buffer_print(buffer, " %c", byte);
        else
            buffer_print(buffer, " %d", byte);
    }
}

void text_print_all(struct buffer *buffer, enum side side, const uint8_t *records, size_t length)
{
    for (size_t at = 0; at < length; at += CUDRETH_RECORD_BYTES) {
        text_print(buffer, side, records + at);
        buffer_add(buffer, "\n", 1);
    }
}
