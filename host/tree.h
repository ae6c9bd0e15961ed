/* A tree as the solver writes it, drawn as indented lines and as a picture. */
#ifndef TREE_H
#define TREE_H

#include "buffer.h"

/* Both take an answer that the archive has written. */
void tree_draw(struct buffer *buffer, const uint8_t *answer, size_t length);
void tree_svg(struct buffer *buffer, const uint8_t *answer, size_t length);

#endif
