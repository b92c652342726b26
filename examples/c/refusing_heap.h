/* The heap's three functions, for programs that try what happens without memory: the call of number `refused_at` gets
 * none. */
#ifndef REFUSING_HEAP_H
#define REFUSING_HEAP_H

#include "lislink.h"
#include <stdlib.h>

static size_t calls, live, refused_at;

static rattle_tried tell(void *p) {
    rattle_tried answer = {p != NULL, p != NULL ? (uint8_t *)p : (uint8_t *)&calls};
    return answer;
}

rattle_tried rattle_alloc(size_t size, size_t align) {
    if (++calls == refused_at)
        return tell(NULL);
    live++;
    return tell(malloc(size != 0 ? size : align));
}

rattle_tried rattle_realloc(uint8_t *p, size_t kept, size_t size, size_t align) {
    (void)kept;
    return tell(++calls == refused_at ? NULL : realloc(p, size != 0 ? size : align));
}

void rattle_dealloc(uint8_t *p) {
    live--;
    free(p);
}

#endif
