/* The heap that the library calls: a buffer that a caller lends to a receiver or a station for its texts, and malloc for
 * all else. With -DLIS_NO_MALLOC there is no malloc, for a program without a C library (examples/c/bare.c); a program
 * may also bring its own heap in place of this file. Plain C: it is tested and not proved. */
#include "heap.h"

#ifdef LIS_NO_MALLOC
#define OF_THIS_THREAD static
#define GIVE_BACK(p) ((void)(p))
#else
#include <stdlib.h>
#define OF_THIS_THREAD static _Thread_local
#define GIVE_BACK(p) free(p)
#endif

static uint8_t nothing;

/* What is left of the buffer that is being lent; without an address none is. */
OF_THIS_THREAD struct {
    uint8_t *at;
    size_t len;
} lent;

void lislink_lend(uint8_t *buffer, size_t buffer_len) {
    lent.at = buffer;
    lent.len = buffer_len;
}

static rattle_tried told(void *p) {
    rattle_tried answer = {p != NULL, p != NULL ? (uint8_t *)p : &nothing};
    return answer;
}

/* A lent block begins at an odd address, and none of malloc does. */
static bool is_lent(const uint8_t *p) {
    return ((uintptr_t)p & 1) != 0;
}

/* The next block of the buffer that is being lent; NULL if it is too short. */
static uint8_t *lent_block(size_t size) {
    size_t skipped = is_lent(lent.at) ? 0 : 1;
    if (lent.len < skipped || lent.len - skipped < size)
        return NULL;
    uint8_t *block = lent.at + skipped;
    lent.at = block + size;
    lent.len -= skipped + size;
    return block;
}

rattle_tried rattle_alloc(size_t size, size_t align) {
    if (lent.at != NULL && align == 1)
        return told(lent_block(size));
#ifdef LIS_NO_MALLOC
    return told(NULL);
#else
    return told(malloc(size != 0 ? size : align));
#endif
}

rattle_tried rattle_realloc(uint8_t *p, size_t kept, size_t size, size_t align) {
    (void)kept;
    if (is_lent(p)) /* it keeps its size */
        return told(NULL);
#ifdef LIS_NO_MALLOC
    (void)size;
    (void)align;
    return told(NULL);
#else
    return told(realloc(p, size != 0 ? size : align));
#endif
}

void rattle_dealloc(uint8_t *p) {
    if (!is_lent(p))
        GIVE_BACK(p);
}
