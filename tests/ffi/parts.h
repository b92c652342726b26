/* The parts of a record as LIS02-A2 has them, by a plain loop that shares nothing with the library: what the calls that
 * give all parts at once are compared with. */
#ifndef PARTS_H
#define PARTS_H

#include <lislink.h>
#include <string.h>

/* A component: its bytes, and which it is. */
typedef struct wanted_part {
    size_t offset, len, field, repeat, component;
    bool escaped;
} wanted_part;

/* The components of a text that is a record, from its letter on; how many they are. Delimiters split first, whatever
 * escapes are around them. `first` is the place of the first field delimiter: 1, in a header 5. */
static inline size_t wanted_parts(const lis_delimiters *by, const uint8_t *text, size_t len, wanted_part *out) {
    bool header = text[0] == 'H' || text[0] == 'h';
    size_t first = header ? 5 : 1, count = 0, begin = first + 1;
    size_t field = header ? 3 : 2, repeat = 0, component = 0;
    if (len <= first)
        return 0;
    for (size_t at = begin; at <= len; at++) {
        bool ends_field = at == len || text[at] == by->field;
        bool ends_repeat = ends_field || text[at] == by->repeat;
        if (!ends_repeat && text[at] != by->component)
            continue;
        bool escaped = memchr(text + begin, by->escape, at - begin) != NULL;
        wanted_part part = {begin, at - begin, field, repeat, component, escaped};
        out[count++] = part;
        begin = at + 1;
        component = ends_repeat ? 0 : component + 1;
        repeat = ends_field ? 0 : ends_repeat ? repeat + 1 : repeat;
        field += ends_field;
    }
    return count;
}

static inline int digit_of(uint8_t byte) {
    const char *digits = "0123456789ABCDEFabcdef", *found = byte != 0 ? strchr(digits, byte) : NULL;
    int value = found != NULL ? (int)(found - digits) : -1;
    return value > 15 ? value - 6 : value;
}

/* The bytes of an escape without its two escape bytes; how many they are, or -1 if it is no escape. */
static inline long wanted_escape(const lis_delimiters *by, const uint8_t *inside, size_t len, uint8_t *out) {
    if (len == 1) {
        switch (inside[0]) {
        case 'H':
        case 'N':
            return 0;
        case 'F':
            return out[0] = by->field, 1;
        case 'S':
            return out[0] = by->component, 1;
        case 'R':
            return out[0] = by->repeat, 1;
        case 'E':
            return out[0] = by->escape, 1;
        default:
            return -1;
        }
    }
    if (len < 3 || len % 2 == 0 || inside[0] != 'X')
        return -1;
    for (size_t i = 1; i < len; i += 2) {
        int high = digit_of(inside[i]), low = digit_of(inside[i + 1]);
        if (high < 0 || low < 0)
            return -1;
        out[i / 2] = (uint8_t)(high * 16 + low);
    }
    return (long)(len / 2);
}

/* What the bytes of a component mean; how many there are, at most as many as it has. */
static inline size_t wanted_bytes(const lis_delimiters *by, const uint8_t *part, size_t len, uint8_t *out) {
    size_t count = 0;
    for (size_t at = 0; at < len;) {
        const uint8_t *end = part[at] == by->escape ? memchr(part + at + 1, by->escape, len - at - 1) : NULL;
        long more = end != NULL ? wanted_escape(by, part + at + 1, (size_t)(end - part) - at - 1, out + count) : -1;
        if (more < 0)
            out[count++] = part[at++];
        else {
            count += (size_t)more;
            at = (size_t)(end - part) + 1;
        }
    }
    return count;
}

#endif
