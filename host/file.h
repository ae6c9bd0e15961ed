/* Files read whole, up to a bound, and files written whole or not at all. */
#ifndef FILE_H
#define FILE_H

#include <stdbool.h>
#include <stddef.h>
#include <stdint.h>

#include "buffer.h"

/* More of a file is not looked at: no question, answer or tree that is accepted is near it. */
#define FILE_MOST ((size_t)1 << 24)

struct file {
    const char *name;
    uint8_t *bytes; /* kept from one file to the next */
    size_t room;
    size_t length; /* at most FILE_MOST + 1 */
};

/* NULL, or why the file cannot be read. "-" is standard input, which can be read once. */
const char *file_read(struct file *file, const char *name);
bool file_too_long(const struct file *file);
/* Whether standard input is there to be read; from then on it is not. */
bool take_standard_input(void);

/* Writes a file; one that is there already is kept until the new one is whole. False, with errno set, where it cannot be written. */
bool file_write(const char *name, struct buffer *text);

/* Gives closed descriptors 0 to 2 a file that fails when it is used, so that no file that is opened takes their place. */
void keep_standard_descriptors(void);

#endif
