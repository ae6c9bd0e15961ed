/*
 * Where a file is refused (docs/FORMAT.md, "The command"). The archive tells only a number; the place is told by asking it about beginnings
 * of the file, so that here too it alone judges.
 */
#ifndef PLACE_H
#define PLACE_H

#include <stddef.h>
#include <stdint.h>

/* A record, and in text which of its bytes; 0 is its word. */
struct place {
    size_t record;
    unsigned field;
};

struct place place_in_question(const uint8_t *question, size_t length, uint32_t number);
/* `question` matters for 12 alone. Node records that were refused as XML are an answer too. */
struct place place_in_answer(const uint8_t *answer, size_t length, const uint8_t *question, size_t question_length, uint32_t number);
/* The first byte that no accepted text has there, behind the bytes before it. */
size_t place_in_paths(const uint8_t *text, size_t length, uint32_t number);
size_t place_in_xml(const uint8_t *text, size_t length);
/* The line, from 1, of a text of paths that is accepted, which a record of it is written for. */
size_t place_line_of_paths(const uint8_t *text, size_t length, size_t record);

#endif
