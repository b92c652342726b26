/* Ends with 0 if rattle_arg gives each word of the process, in room of 0, 1, .. bytes up to one more than the word has,
 * and none after the last one, and if errno is kept. */
#include <errno.h>
#include <stddef.h>
#include <stdint.h>
#include <stdio.h>
#include <stdlib.h>
#include <string.h>

ptrdiff_t rattle_arg(size_t i, uint8_t *out, size_t out_len);
size_t rattle_arg_count(void);
int32_t rattle_errno(void);
void rattle_set_errno(int32_t error);

int main(int argc, char **argv) {
    if (rattle_arg_count() != (size_t)argc)
        return 1;
    for (int at = 0; at < argc; at++) {
        size_t whole = strlen(argv[at]);
        for (size_t room = whole > 300 ? whole - 2 : 0; room <= whole + 1; room++) {
            uint8_t *out = malloc(room + 1);    /* exactly so many bytes, and one that stays */
            if (out == NULL)
                return 1;
            memset(out, 0xee, room + 1);
            ptrdiff_t size = rattle_arg((size_t)at, out, room);
            size_t kept = room < whole ? room : whole;
            if (size != (room < whole ? -2 : (ptrdiff_t)whole) || memcmp(out, argv[at], kept) != 0 || out[kept] != 0xee)
                return 1;
            free(out);
        }
    }
    uint8_t byte = 0;
    if (rattle_arg((size_t)argc, &byte, 1) != -1 || rattle_arg(SIZE_MAX, &byte, 1) != -1)
        return 1;
    for (int32_t error = 0; error < 200; error++) {
        rattle_set_errno(error);
        if (errno != error || rattle_errno() != error)
            return 1;
    }
    printf("%d words\n", argc);
    return 0;
}
