/* What the program lislink asks of the system besides the C library: its words and errno. Part of the program alone.
 * Nothing here is proved: the tests try it with no words, with many and with long ones. */
#include <errno.h>
#include <stddef.h>
#include <stdint.h>

/* Declared here, since only the proved program calls them. */
ptrdiff_t rattle_arg(size_t i, uint8_t *out, size_t out_len);
size_t rattle_arg_count(void);
int32_t rattle_errno(void);
void rattle_set_errno(int32_t error);

static char **words;
static size_t count;

/* Keeps the words of the process; glibc calls it with them before `main`. */
__attribute__((constructor)) static void keep(int argc, char **argv) {
    words = argv;
    count = argc > 0 ? (size_t)argc : 0;
}

/* How many words there are, the program's own name among them. */
size_t rattle_arg_count(void) {
    return count;
}

/* Copies a word without its 0, and answers its length; -1 if there is no such word; -2 if it has more bytes than `out`,
 * which then has the first ones. */
ptrdiff_t rattle_arg(size_t i, uint8_t *out, size_t out_len) {
    if (i >= count || words[i] == NULL)
        return -1;
    size_t size = 0;
    for (; words[i][size] != 0; size++) {
        if (size == out_len)
            return -2;
        out[size] = (uint8_t)words[i][size];
    }
    return (ptrdiff_t)size;
}

/* Why the last call of the system failed. */
int32_t rattle_errno(void) {
    return errno;
}

/* Sets what rattle_errno gives. */
void rattle_set_errno(int32_t error) {
    errno = error;
}
