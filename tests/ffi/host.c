/* examples/c/host.c over standard input, for tests/ffi: its timer is 1.5 s; each text is printed, but one that
 * begins with X can't be kept. */
#include "../../examples/c/loops.h"
#include <stdio.h>

static bool takes(void *keeper, const uint8_t *text, size_t len) {
    (void)keeper;
    return text[0] != 'X' && fwrite(text, 1, len, stdout) == len && fflush(stdout) == 0;
}

int main(void) {
    return host(0, takes, NULL, 5) == 0 ? 0 : 1;
}
