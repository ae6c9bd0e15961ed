#include "place.h"

#include <stdbool.h>
#include <string.h>

#include "cudreth.h"

/* A file that is asked about, and what is asked of a beginning of it; questions get no from some length on. */
struct asked {
    const uint8_t *bytes;
    size_t length;
    uint32_t number;
    bool (*passes)(const struct asked *asked, size_t length);
};

/* The longest beginning that passes, of `low` to `high` units; that of `low` does. */
static size_t longest(const struct asked *asked, size_t low, size_t high, size_t unit)
{
    while (low < high) {
        size_t middle = low + (high - low + 1) / 2;
        if (asked->passes(asked, middle * unit))
            low = middle;
        else
            high = middle - 1;
    }
    return low;
}

static const uint8_t no_byte[1];

static bool is_refused(uint64_t result, uint32_t number)
{
    return cudreth_verdict(result) == CUDRETH_REFUSED && cudreth_question(result) == number;
}

/* Questions. */

static bool question_passes(const struct asked *asked, size_t length)
{
    return !is_refused(cudreth_mark(asked->bytes, length, no_byte, 0), asked->number);
}

struct place place_in_question(const uint8_t *question, size_t length, uint32_t number)
{
    const size_t most = CUDRETH_CONSTRAINTS_BYTES / CUDRETH_RECORD_BYTES;
    size_t records = length / CUDRETH_RECORD_BYTES;
    if (number == CUDRETH_Q_CONSTRAINTS_LONG)
        return (struct place){most, 0};
    if (number == CUDRETH_Q_CONSTRAINTS_CUT)
        return (struct place){records, 0};
    struct asked asked = {question, length, number, question_passes};
    size_t record = longest(&asked, 0, records, CUDRETH_RECORD_BYTES);
    unsigned field = 3;
    if (number == CUDRETH_Q_VARIABLE)
        field = question[record * CUDRETH_RECORD_BYTES + 1] >= CUDRETH_VARIABLES ? 1 : 2;
    return (struct place){record, field};
}

/* Answers. */

static bool answer_passes(const struct asked *asked, size_t length)
{
    return !is_refused(cudreth_mark(no_byte, 0, asked->bytes, length), asked->number);
}

static bool writer_passes(const struct asked *asked, size_t length)
{
    uint8_t text[CUDRETH_XML_BYTES];
    return !is_refused(cudreth_xml_write(asked->bytes, length, text, sizeof text), asked->number);
}

static size_t node_records(const uint8_t *answer, size_t records)
{
    size_t nodes = 0;
    while (nodes < records && answer[nodes * CUDRETH_RECORD_BYTES] == CUDRETH_NODE)
        nodes++;
    return nodes;
}

/* Two nodes are the least that is asked 11, so of two it may be either. */
static struct place refused_node(const struct asked *asked, size_t nodes)
{
    static const uint8_t document_node[] = {CUDRETH_NODE, 0, 0, 0};
    size_t node = longest(asked, 1, nodes, CUDRETH_RECORD_BYTES);
    if (memcmp(asked->bytes, document_node, sizeof document_node) != 0)
        node = 0;
    const uint8_t *record = asked->bytes + node * CUDRETH_RECORD_BYTES;
    if (record[1] != node)
        return (struct place){node, 1};
    return (struct place){node, node == 0 && record[2] == 0 ? 3 : 2};
}

/* The number of variables: so many places the archive wants. */
static size_t variables_of(const uint8_t *question, size_t length)
{
    uint8_t answer[(2 + CUDRETH_VARIABLES) * CUDRETH_RECORD_BYTES] = {CUDRETH_NODE, 0, 0, 0, CUDRETH_NODE, 1, 0, 0};
    for (size_t variables = 0; variables < CUDRETH_VARIABLES; variables++) {
        uint8_t *place = answer + (2 + variables) * CUDRETH_RECORD_BYTES;
        if (!is_refused(cudreth_mark(question, length, answer, (size_t)(place - answer)), CUDRETH_Q_PLACES))
            return variables;
        place[0] = CUDRETH_PLACE;
        place[1] = (uint8_t)variables;
    }
    return CUDRETH_VARIABLES;
}

/* The first of the places at fault, each asked with a question that has just as many variables; else where one lacks or is too many. */
static struct place refused_place(const uint8_t *answer, size_t nodes, size_t places, size_t variables)
{
    size_t place = 0;
    for (; place < places && place < variables; place++) {
        const uint8_t question[] = {CUDRETH_LEAF, (uint8_t)place, 0, 0};
        uint64_t marked = cudreth_mark(question, sizeof question, answer, (nodes + place + 1) * CUDRETH_RECORD_BYTES);
        if (is_refused(marked, CUDRETH_Q_PLACES))
            break;
    }
    bool another = place == variables || (place < places && answer[(nodes + place) * CUDRETH_RECORD_BYTES + 1] != place);
    return (struct place){nodes + place, another ? 1 : 2};
}

struct place place_in_answer(const uint8_t *answer, size_t length, const uint8_t *question, size_t question_length, uint32_t number)
{
    size_t records = length / CUDRETH_RECORD_BYTES;
    size_t nodes = node_records(answer, records);
    struct asked asked = {answer, length, number, answer_passes};
    switch (number) {
    case CUDRETH_Q_ANSWER_KIND:
        return (struct place){longest(&asked, 0, records, CUDRETH_RECORD_BYTES), 0};
    case CUDRETH_Q_NODE_COUNT:
        return (struct place){nodes > CUDRETH_NODES ? CUDRETH_NODES : records, 0};
    case CUDRETH_Q_NODES:
        return refused_node(&asked, nodes);
    case CUDRETH_Q_PLACES:
        return refused_place(answer, nodes, records - nodes, variables_of(question, question_length));
    case CUDRETH_Q_XML_LABEL:
        asked.passes = writer_passes;
        return (struct place){longest(&asked, 0, nodes, CUDRETH_RECORD_BYTES), 3};
    default:
        return (struct place){records, 0}; /* the record that is cut */
    }
}

/* Texts. A beginning passes if some end makes it a text that is accepted. */

struct ending {
    uint8_t text[CUDRETH_TEXT_BYTES + CUDRETH_XML_BYTES];
    size_t length;
};

static bool end_with(struct ending *ending, const char *bytes, size_t length)
{
    if (length > sizeof ending->text - ending->length)
        return false;
    memcpy(ending->text + ending->length, bytes, length);
    ending->length += length;
    return true;
}

/* A beginning, then `first`, then `last`; false if there is no room, as there is for every accepted text. */
static bool put_together(struct ending *ending, const struct asked *asked, size_t length, const char *first, const char *last)
{
    ending->length = 0;
    return end_with(ending, (const char *)asked->bytes, length) && end_with(ending, first, strlen(first)) && end_with(ending, last, strlen(last));
}

static bool paths_accepted(const struct ending *ending, uint32_t number)
{
    uint8_t records[CUDRETH_RECORDS_BYTES];
    uint64_t result = cudreth_paths(ending->text, ending->length, records, sizeof records);
    return cudreth_verdict(result) == CUDRETH_WRITTEN || (number == CUDRETH_Q_TEXT_FORM && !is_refused(result, number));
}

/* "]" for each bracket that is open in the last line, then the line's end. */
static bool close_brackets(char *closing, size_t room, const uint8_t *text, size_t length)
{
    size_t open = 0;
    for (size_t at = 0; at < length; at++) {
        open += text[at] == '[';
        open -= text[at] == ']' && open > 0;
        if (text[at] == '\n')
            open = 0;
    }
    if (open + 2 > room)
        return false;
    memset(closing, ']', open);
    memcpy(closing + open, "\n", 2);
    return true;
}

static bool paths_pass(const struct asked *asked, size_t length)
{
    static const char *const steps[] = {
        "self::*",       "child::*",           "parent::*",          "descendant::*", "ancestor::*", "descendant-or-self::*",
        "ancestor-or-self::*", "following-sibling::*", "preceding-sibling::*", "/",
    };
    char closing[CUDRETH_TEXT_BYTES];
    struct ending ending;
    if (length > CUDRETH_TEXT_BYTES || !close_brackets(closing, sizeof closing, asked->bytes, length))
        return false;
    if (put_together(&ending, asked, length, "", "") && paths_accepted(&ending, asked->number))
        return true;
    /* What is left of a step, wherever the beginning has cut it. */
    for (size_t step = 0; step < sizeof steps / sizeof steps[0]; step++)
        for (const char *rest = steps[step];; rest++) {
            if (put_together(&ending, asked, length, rest, closing) && paths_accepted(&ending, asked->number))
                return true;
            if (!*rest)
                break;
        }
    return false;
}

size_t place_in_paths(const uint8_t *text, size_t length, uint32_t number)
{
    struct asked asked = {text, length, number, paths_pass};
    return longest(&asked, 0, length, 1);
}

/* Records stand in the order of the lines: the first so many lines that have this one. */
size_t place_line_of_paths(const uint8_t *text, size_t length, size_t record)
{
    uint8_t records[CUDRETH_RECORDS_BYTES];
    size_t line = 0;
    for (size_t at = 0; at < length; at++) {
        if (text[at] != '\n')
            continue;
        line++;
        uint64_t result = cudreth_paths(text, at + 1, records, sizeof records);
        if (cudreth_written(result) > record * CUDRETH_RECORD_BYTES)
            break;
    }
    return line;
}

/* "</x>" for each element that is open, the last one first. */
static void close_elements(char *closing, const uint8_t *text, size_t length)
{
    uint8_t open[CUDRETH_NODES];
    size_t depth = 0;
    for (size_t at = 0; at + 2 < length; at++) {
        if (text[at] != '<')
            continue;
        if (text[at + 1] != '/' && text[at + 2] == '>' && depth < sizeof open)
            open[depth++] = text[at + 1];
        if (text[at + 1] == '/' && at + 3 < length && depth > 0)
            depth--;
    }
    for (; depth > 0; closing += 4) {
        const char tag[] = {'<', '/', (char)open[--depth], '>'};
        memcpy(closing, tag, sizeof tag);
    }
    *closing = '\0';
}

static bool xml_pass(const struct asked *asked, size_t length)
{
    static const char *const leaves[] = {"", ">", "/>", "_/>", "<_/>"};
    char closing[4 * CUDRETH_NODES + 1];
    struct ending ending;
    uint8_t nodes[CUDRETH_NODES_BYTES];
    if (length > CUDRETH_XML_BYTES)
        return false;
    close_elements(closing, asked->bytes, length);
    for (size_t leaf = 0; leaf < sizeof leaves / sizeof leaves[0]; leaf++)
        for (const char *rest = closing;; rest++) {
            if (put_together(&ending, asked, length, leaves[leaf], rest)
                && cudreth_verdict(cudreth_xml_read(ending.text, ending.length, nodes, sizeof nodes)) == CUDRETH_WRITTEN)
                return true;
            if (!*rest)
                break;
        }
    return false;
}

size_t place_in_xml(const uint8_t *text, size_t length)
{
    struct asked asked = {text, length, CUDRETH_Q_XML_FORM, xml_pass};
    return longest(&asked, 0, length, 1);
}
