/* What the harnesses share. */
#ifndef FUZZ_H
#define FUZZ_H

#include <lislink.h>
#include <stdlib.h>
#include <string.h>

#define CHECK(good) do { if (!(good)) __builtin_trap(); } while (0)

int LLVMFuzzerTestOneInput(const uint8_t *data, size_t size);

/* The bytes of an input that were not used yet. */
typedef struct input {
    const uint8_t *at;
    size_t left;
} input;

static inline uint8_t one(input *from) {
    if (from->left == 0)
        return 0;
    from->left--;
    return *from->at++;
}

/* A copy of bytes in a block of their size, so that the sanitizer sees a byte that is read past them. */
static inline uint8_t *copy_of(const uint8_t *bytes, size_t len) {
    uint8_t *copy = malloc(len != 0 ? len : 1);
    CHECK(copy != NULL);
    if (len != 0)
        memcpy(copy, bytes, len);
    return copy;
}

/* The next bytes of an input, so many at most, as a copy. */
static inline uint8_t *some(input *from, size_t *len) {
    if (*len > from->left)
        *len = from->left;
    uint8_t *copy = copy_of(from->at, *len);
    from->at += *len;
    from->left -= *len;
    return copy;
}

/* A pseudorandom number, and the size of a piece of what is left. */
static inline uint32_t next(uint32_t *seed) {
    return *seed = *seed * 1103515245u + 12345u;
}

static inline size_t piece_of(uint32_t *seed, size_t most, size_t left) {
    size_t piece = 1 + (next(seed) >> 16) % most;
    return piece < left ? piece : left;
}

static inline void *block(size_t size) {
    void *at = malloc(size);
    CHECK(at != NULL);
    return at;
}

#endif
