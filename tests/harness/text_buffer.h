/* A text that is put together, piece by piece. */
#ifndef TEXT_BUFFER_H
#define TEXT_BUFFER_H

#include <stddef.h>
#include <stdint.h>

enum { TEXT_BYTES = 8000 };  /* most bytes of a text */

struct text {
    uint8_t bytes[TEXT_BYTES];
    size_t length;
};

void text_put(struct text *t, const char *bytes);

/* A number of at most five digits, with a sign if it is negative. */
void text_put_number(struct text *t, long value);

#endif
