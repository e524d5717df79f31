/* Tables as they are lent to a call, with guard bytes. */
#include <stdio.h>
#include <stdlib.h>
#include <string.h>

#include "guarded_tables.h"

enum { ROOM = 1 << 20, GUARD = 64, GUARD_BYTE = 0xA5 };

/* Words, so that every copy is aligned for any table. */
static uint64_t room[ROOM / 8];
static uint8_t before[ROOM];
static size_t used;
static uint32_t round_number;

static uint8_t *bytes(void)
{
    return (uint8_t *)room;
}

/* Guard bytes, up to the next multiple of 8 and GUARD more. */
static void guard(void)
{
    size_t end = (used + 7) / 8 * 8 + GUARD;

    memset(bytes() + used, GUARD_BYTE, end - used);
    used = end;
}

void lend_begin(void)
{
    round_number++;
    used = 0;
    guard();
}

void *lend(const void *from, size_t size)
{
    uint8_t *copy = bytes() + used;

    if (size == 0)
        return round_number % 2 == 0 ? NULL : copy - GUARD;
    if (ROOM - used < size + 2 * GUARD) {
        printf("the test itself is at fault: no room to lend\n");
        exit(2);
    }
    memcpy(copy, from, size);
    used += size;
    guard();
    return copy;
}

uint32_t *lend_cell(void)
{
    uint32_t contents = 0xC0DD1E00u + round_number * 3 + (uint32_t)used;

    return lend(&contents, sizeof contents);
}

size_t *lend_wide_cell(void)
{
    size_t contents = (size_t)0xC0DD1E00C0DD1E00u + round_number * 3 + used;

    return lend(&contents, sizeof contents);
}

void lend_end(void)
{
    memcpy(before, room, used);
}

void take(void *into, void *lent, size_t size)
{
    if (size == 0)
        return;
    memcpy(into, lent, size);
    memcpy(lent, before + ((uint8_t *)lent - bytes()), size);
}

int nothing_else_changed(void)
{
    return memcmp(room, before, used) == 0;
}
