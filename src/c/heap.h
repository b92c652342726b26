/* What lent.c asks of heap.c. */
#ifndef LISLINK_HEAP_H
#define LISLINK_HEAP_H
#include "lislink.h"

/* Until the next call of this thread blocks of bytes are taken from this buffer; with NULL from none. */
void lislink_lend(uint8_t *buffer, size_t buffer_len);
#endif
