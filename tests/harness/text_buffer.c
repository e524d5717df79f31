/* A text that is put together, piece by piece. */
#include <string.h>

#include "text_buffer.h"

void text_put(struct text *t, const char *bytes)
{
    size_t length = strlen(bytes);

    memcpy(t->bytes + t->length, bytes, length);
    t->length += length;
}

void text_put_number(struct text *t, long value)
{
    char digits[8];
    int k = 7;

    if (value < 0)
        text_put(t, "-");
    value = value < 0 ? -value : value;
    digits[k] = 0;
    do
        digits[--k] = (char)('0' + value % 10);
    while ((value /= 10) > 0);
    text_put(t, digits + k);
}
