/* Text that is put together before it is printed, so that it goes out whole. */
#ifndef BUFFER_H
#define BUFFER_H

#include <stdbool.h>
#include <stddef.h>
#include <stdint.h>

struct buffer {
    char *bytes;
    size_t length;
    size_t room;
};

/* Each ends the program, with a message and status 4, where there is no memory. */
void buffer_add(struct buffer *buffer, const void *bytes, size_t length);
void buffer_print(struct buffer *buffer, const char *format, ...) __attribute__((format(printf, 2, 3)));

/* A file's name: control characters as \ and three octal digits, so that a line stays a line; "-" as "standard input". */
void buffer_name(struct buffer *buffer, const char *name);

/* A word of a file, between quotes: at most 20 bytes of it, those that are not 33 to 126 as \ and three octal digits. */
void buffer_word(struct buffer *buffer, const uint8_t *word, size_t length);

/* Writes all that is in the buffer and empties it; false, with errno set, where not all of it could be written. */
bool buffer_write(struct buffer *buffer, int descriptor);

void buffer_free(struct buffer *buffer);

#endif
