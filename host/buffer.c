#include "buffer.h"

#include <errno.h>
#include <stdarg.h>
#include <stdio.h>
#include <stdlib.h>
#include <string.h>
#include <unistd.h>

#include "command.h"

#define WORD_SHOWN 20

static void make_room(struct buffer *buffer, size_t more)
{
    if (buffer->room - buffer->length >= more)
        return;
    size_t room = 2 * (buffer->length + more);
    char *bytes = realloc(buffer->bytes, room);
    if (!bytes) {
        complain("%s", strerror(ENOMEM));
        exit(UNUSABLE);
    }
    buffer->bytes = bytes;
    buffer->room = room;
}

void buffer_add(struct buffer *buffer, const void *bytes, size_t length)
{
    make_room(buffer, length);
    if (length > 0)
        memcpy(buffer->bytes + buffer->length, bytes, length);
    buffer->length += length;
}

void buffer_print(struct buffer *buffer, const char *format, ...)
{
    va_list values;
    va_start(values, format);
    int length = vsnprintf(NULL, 0, format, values);
    va_end(values);
    make_room(buffer, (size_t)length + 1);
    va_start(values, format);
    vsnprintf(buffer->bytes + buffer->length, (size_t)length + 1, format, values);
    va_end(values);
    buffer->length += (size_t)length;
}

void buffer_name(struct buffer *buffer, const char *name)
{
    if (strcmp(name, "-") == 0)
        name = "standard input";
    for (; *name; name++) {
        unsigned char byte = (unsigned char)*name;
        if (byte < 32 || byte == 127)
            buffer_print(buffer, "\\%03o", byte);
        else
            buffer_add(buffer, name, 1);
    }
}

void buffer_word(struct buffer *buffer, const uint8_t *word, size_t length)
{
    buffer_add(buffer, "'", 1);
    for (size_t at = 0; at < length && at < WORD_SHOWN; at++) {
        if (word[at] < 33 || word[at] > 126)
            buffer_print(buffer, "\\%03o", word[at]);
        else
            buffer_add(buffer, word + at, 1);
    }
    if (length > WORD_SHOWN)
        buffer_add(buffer, "...", 3);
    buffer_add(buffer, "'", 1);
}

bool buffer_write(struct buffer *buffer, int descriptor)
{
    size_t written = 0;
    while (written < buffer->length) {
        ssize_t count = write(descriptor, buffer->bytes + written, buffer->length - written);
        if (count >= 0)
            written += (size_t)count;
        else if (errno != EINTR)
            return false;
    }
    buffer->length = 0;
    return true;
}

void buffer_free(struct buffer *buffer)
{
    free(buffer->bytes);
    *buffer = (struct buffer){0};
}
