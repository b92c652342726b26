/* All parts of a record at once, against a plain loop (tests/ffi/parts.h): the input is a record or a header, under the
 * usual delimiters and under any. */
#include "fuzz.h"

#include "../ffi/parts_check.h"

static const char *const words[] = {"H|\\^&", "P|1", "O|1|S", "R|1|^^^A|5", "L|1|N", "C|1|", "Q|1|^", "h!+*-",
                                    "S|", "|", "\\", "^", "&F&", "&X4f&", "&", "&XA"};

int LLVMFuzzerTestOneInput(const uint8_t *data, size_t size) {
    if (size < 6)
        return 0;
    uint8_t *made = block(size * 12);
    lis_delimiters by = {data[1], data[2], data[3], data[4]}, usual = {'|', '\\', '^', '&'};
    size_t len = 0;
    for (size_t i = 5; i < size; i++) {
        const char *word = words[data[i] & 15];
        if (!(data[0] & 1) && data[i] < 16) {
            memcpy(made + len, word, strlen(word));
            len += strlen(word);
        } else {
            made[len++] = data[i];
        }
    }
    uint8_t *text = copy_of(made, len);
    check_parts(&by, text, len, len < 512);
    check_parts(&usual, text, len, len < 512);
    free(text);
    free(made);
    return 0;
}
