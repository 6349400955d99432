/* Names as two numbers each: loaded whole, folded and compared eight bytes at a time. */
#ifndef PLAIN_NAMES_H
#define PLAIN_NAMES_H

#include "plain_policy.h"

#include <string.h>

static inline struct name load_name(const uint8_t *bytes, size_t length)
{
    static const uint8_t window[2 * NAME_BYTES] = {
        255, 255, 255, 255, 255, 255, 255, 255, 255, 255, 255, 255, 255, 255, 255, 255,
    };
    struct name name, mask;

    memcpy(&name, bytes, NAME_BYTES);
    memcpy(&mask, window + NAME_BYTES - length, NAME_BYTES);
    name.half[0] &= mask.half[0];
    name.half[1] &= mask.half[1];
    return name;
}

/* The capitals of eight bytes in small letters: bit 7 of each byte tells what is at least A and at most Z. */
static inline uint64_t fold(uint64_t bytes)
{
    const uint64_t each = 0x0101010101010101u;
    uint64_t low = bytes & 0x7f * each;
    uint64_t capitals = (low + (128 - 'A') * each) & ~(low + (127 - 'Z') * each) & ~bytes & 0x80 * each;

    return bytes | capitals >> 2;
}

static inline struct name folded(struct name name)
{
    return (struct name){{fold(name.half[0]), fold(name.half[1])}};
}

/* A caller's name in small letters, with nothing loaded behind its end. What is no name can come out as one; its length
 * tells it apart. */
static inline struct name given_name(const uint8_t *bytes, size_t length)
{
    struct name name = {{0, 0}};

    if (length <= NAME_BYTES)
        memcpy(&name, bytes, length);
    return folded(name);
}

static inline bool same(struct name a, struct name b)
{
    return ((a.half[0] ^ b.half[0]) | (a.half[1] ^ b.half[1])) == 0;
}

static inline bool among(struct name name, const struct name *names, size_t count)
{
    for (size_t i = 0; i < count; i++)
        if (same(name, names[i]))
            return true;
    return false;
}

#endif
