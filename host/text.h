/* The text form: a record a line (docs/FORMAT.md, "The text form"). It says nothing of which records are accepted. */
#ifndef TEXT_H
#define TEXT_H

#include <stdbool.h>
#include <stddef.h>
#include <stdint.h>

#include "buffer.h"

enum side { QUESTION, ANSWER };

struct spot {
    size_t line;
    size_t column;
};

/* Why a text is not of the form, and where. */
struct complaint {
    struct buffer words;
    struct spot spot;
};

/*
 * Reads a text into records of 4 bytes, for which there must be room: as many bytes as the text has, and one record more, are enough. False,
 * with the complaint, where it is not of the form.
 */
bool text_read(const uint8_t *text, size_t length, enum side side, uint8_t *records, size_t *written, struct complaint *complaint);

/* Where byte `field` of record `record` stands in a text of the form, 0 being the record's word; its end, if there is no such record. */
struct spot text_spot(const uint8_t *text, size_t length, enum side side, size_t record, unsigned field);

/* The place of a byte. */
struct spot text_spot_at(const uint8_t *text, size_t length, size_t at);

/* Whether the first word has a '/' or a ':', as every path has and no record. */
bool text_is_paths(const uint8_t *text, size_t length);

/*
 * A record as a line, without its end. A question's labels are letters where they can be; an answer's are numbers, as the program solve prints
 * them.
 */
void text_print(struct buffer *buffer, enum side side, const uint8_t *record);
/* Records of a file, each a line. */
void text_print_all(struct buffer *buffer, enum side side, const uint8_t *records, size_t length);

#endif
