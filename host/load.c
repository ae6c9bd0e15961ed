#include "load.h"

#include <errno.h>
#include <inttypes.h>
#include <stdlib.h>
#include <string.h>

#include "command.h"
#include "cudreth.h"
#include "place.h"

static const uint8_t no_byte[1]; /* what an empty file begins with: the archive takes no NULL */

static const char *load_file(struct loaded *loaded, const char *name)
{
    loaded->refused = false;
    loaded->refusal.words.length = 0;
    const char *reason = file_read(&loaded->file, name);
    loaded->records = loaded->file.length > 0 ? loaded->file.bytes : no_byte;
    loaded->length = loaded->file.length;
    bool bytes = loaded->length == 0 || memchr(loaded->file.bytes, 0, loaded->length);
    loaded->form = bytes ? BYTES : RECORDS;
    return reason;
}

static void refuse(struct loaded *loaded, uint32_t number, enum whereabouts where)
{
    loaded->refused = true;
    loaded->refusal.number = number;
    loaded->refusal.where = where;
    if (number > 0)
        buffer_print(&loaded->refusal.words, "%s", cudreth_question_words(number));
}

static void refuse_too_long(struct loaded *loaded)
{
    refuse(loaded, 0, NOWHERE);
    buffer_print(&loaded->refusal.words, "the file has more than %zu bytes", FILE_MOST);
}

/* Records of a text in the text form. */
static const char *load_text(struct loaded *loaded, enum side side)
{
    uint8_t *room = realloc(loaded->room, loaded->file.length + CUDRETH_RECORD_BYTES);
    if (!room)
        return strerror(ENOMEM);
    loaded->room = room;
    loaded->records = room;
    struct complaint complaint = {.words = loaded->refusal.words};
    bool fine = text_read(loaded->file.bytes, loaded->file.length, side, room, &loaded->length, &complaint);
    loaded->refusal.words = complaint.words;
    if (!fine) {
        refuse(loaded, 0, AT_SPOT);
        loaded->refusal.spot = complaint.spot;
    }
    return NULL;
}

/* The archive's records of a text of paths. */
static const char *translate(struct loaded *loaded)
{
    uint8_t *room = realloc(loaded->room, CUDRETH_RECORDS_BYTES);
    if (!room)
        return strerror(ENOMEM);
    loaded->room = room;
    loaded->form = PATHS;
    uint64_t result = cudreth_paths(loaded->records, loaded->length, room, CUDRETH_RECORDS_BYTES);
    if (cudreth_verdict(result) == CUDRETH_REFUSED) {
        refuse_text(loaded, cudreth_question(result));
    } else {
        loaded->records = room;
        loaded->length = cudreth_written(result);
    }
    return NULL;
}

const char *load_question(struct loaded *loaded, const char *name)
{
    const char *reason = load_file(loaded, name);
    if (reason || loaded->form == BYTES)
        return reason; /* bytes that are too long are the archive's to refuse, with 1 */
    if (text_is_paths(loaded->file.bytes, loaded->file.length))
        return translate(loaded);
    if (!file_too_long(&loaded->file))
        return load_text(loaded, QUESTION);
    refuse_too_long(loaded);
    return NULL;
}

const char *load_answer(struct loaded *loaded, const char *name)
{
    const char *reason = load_file(loaded, name);
    if (reason)
        return reason;
    if (file_too_long(&loaded->file))
        refuse_too_long(loaded);
    else if (loaded->form == RECORDS)
        return load_text(loaded, ANSWER);
    return NULL;
}

const char *load_paths(struct loaded *loaded, const char *name)
{
    const char *reason = load_file(loaded, name);
    return reason ? reason : translate(loaded);
}

size_t nodes_alone(const struct loaded *tree)
{
    size_t nodes = 0;
    while (nodes < tree->length && tree->records[nodes] == CUDRETH_NODE)
        nodes += CUDRETH_RECORD_BYTES;
    size_t end = nodes;
    while (end < tree->length && tree->records[end] == CUDRETH_PLACE)
        end += CUDRETH_RECORD_BYTES;
    return end == tree->length ? nodes : tree->length;
}

const char *load_tree(struct loaded *loaded, const char *name)
{
    const char *reason = load_file(loaded, name);
    if (reason)
        return reason;
    if (loaded->form == RECORDS && loaded->records[0] == '<') {
        loaded->form = XML;
        loaded->length -= loaded->records[loaded->length - 1] == '\n';
    } else if (file_too_long(&loaded->file)) {
        refuse_too_long(loaded);
    } else if (loaded->form == RECORDS) {
        return load_text(loaded, ANSWER);
    }
    return NULL;
}

/* Of bytes the record itself, of text the word for one of its bytes. */
static void refuse_at(struct loaded *loaded, uint32_t number, enum side side, struct place place)
{
    if (loaded->form == BYTES) {
        refuse(loaded, number, AT_RECORD);
        loaded->refusal.record = place.record;
    } else {
        refuse(loaded, number, AT_SPOT);
        loaded->refusal.spot = text_spot(loaded->file.bytes, loaded->file.length, side, place.record, place.field);
    }
}

void refuse_question(struct loaded *question, uint32_t number)
{
    refuse_at(question, number, QUESTION, place_in_question(question->records, question->length, number));
}

/* The marker asks 1 to 6 of the question first; an empty answer is refused behind them. */
void judge_question(struct loaded *question)
{
    uint32_t number = cudreth_question(cudreth_mark(question->records, question->length, no_byte, 0));
    if (number <= CUDRETH_Q_UNUSED)
        refuse_question(question, number);
}

void refuse_answer(struct loaded *answer, uint32_t number, const struct loaded *question)
{
    const uint8_t *asked = question ? question->records : no_byte;
    size_t asked_length = question ? question->length : 0;
    refuse_at(answer, number, ANSWER, place_in_answer(answer->records, answer->length, asked, asked_length, number));
}

void refuse_text(struct loaded *text, uint32_t number)
{
    size_t at = text->form == XML ? place_in_xml(text->records, text->length) : place_in_paths(text->records, text->length, number);
    refuse(text, number, AT_SPOT);
    text->refusal.spot = text_spot_at(text->file.bytes, text->file.length, at);
}

void refusal_print(struct buffer *buffer, const struct refusal *refusal, const char *within)
{
    buffer_print(buffer, "refused");
    if (refusal->number > 0)
        buffer_print(buffer, " %" PRIu32, refusal->number);
    buffer_print(buffer, ": ");
    buffer_add(buffer, refusal->words.bytes, refusal->words.length);
    if (refusal->where == NOWHERE && !within)
        return;
    buffer_print(buffer, " (");
    if (within)
        buffer_name(buffer, within);
    if (within && refusal->where != NOWHERE)
        buffer_print(buffer, ", ");
    if (refusal->where == AT_RECORD)
        buffer_print(buffer, "record %zu", refusal->record);
    if (refusal->where == AT_SPOT)
        buffer_print(buffer, "line %zu, column %zu", refusal->spot.line, refusal->spot.column);
    buffer_print(buffer, ")");
}

int complain_refused(const struct loaded *loaded)
{
    struct buffer words = {0};
    refusal_print(&words, &loaded->refusal, NULL);
    buffer_add(&words, "", 1);
    complain_of(loaded->file.name, words.bytes);
    buffer_free(&words);
    return REFUSED;
}

int load_or_complain(struct loaded *loaded, loader *load, const char *name)
{
    const char *reason = load(loaded, name);
    if (reason) {
        complain_of(name, reason);
        return UNUSABLE;
    }
    return loaded->refused ? complain_refused(loaded) : FOUND;
}
