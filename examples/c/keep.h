/* A file of texts, each with its CR, which one program at a time writes. Half of a text doesn't stay in it, since the
 * next text would be read as its rest: `^^^GLU|1` and `H|\^&` are a glucose of 1H. */
#ifndef KEEP_H
#define KEEP_H

#include <errno.h>
#include <fcntl.h>
#include <stdbool.h>
#include <stdint.h>
#include <stdio.h>
#include <unistd.h>

enum { LONGEST = 1 << 20 };    /* bytes of a text */

typedef struct text_file {
    int file;
    off_t end;    /* where its last whole text ends */
} text_file;

/* Drops what follows the last whole text, if anything does; whether nothing does now. */
static bool cut_back(const text_file *its) {
    return lseek(its->file, 0, SEEK_END) == its->end || (ftruncate(its->file, its->end) == 0 && fsync(its->file) == 0);
}

/* Opens the file, and cuts off half a text that a power failure left after its last CR. False if that fails, another
 * program writes the file, or a line feed or more than a text is there: then it is no file of texts. */
static bool open_texts(text_file *its, const char *path) {
    struct flock alone = {.l_type = F_WRLCK, .l_whence = SEEK_SET};
    char last = 0;
    its->file = open(path, O_RDWR | O_CREAT | O_APPEND, 0600);
    if (its->file < 0 || fcntl(its->file, F_SETLK, &alone) != 0)
        return false;
    off_t size = its->end = lseek(its->file, 0, SEEK_END);
    while (its->end > 0) {
        if (pread(its->file, &last, 1, its->end - 1) != 1 || last == '\n' || size - its->end == LONGEST) {
            fprintf(stderr, "%s is no file of texts\n", path);
            errno = EINVAL;
            return false;
        }
        if (last == '\r')
            break;
        its->end--;
    }
    if (size > its->end)
        fprintf(stderr, "%s: half a text of %lld bytes is cut off\n", path, (long long)(size - its->end));
    return cut_back(its);
}

/* Appends a text, with a CR if it has none; whether it is on the disk. Else the file is as it was, or nothing is kept
 * in it until it can be cut back. */
static bool keep_text(text_file *its, const uint8_t *text, size_t len) {
    size_t more = len > 0 && text[len - 1] != '\r' ? 1 : 0;
    if (!cut_back(its))
        return false;
    if (write(its->file, text, len) == (ssize_t)len && write(its->file, "\r", more) == (ssize_t)more
        && fsync(its->file) == 0) {
        its->end += (off_t)(len + more);
        return true;
    }
    (void)cut_back(its);    /* if that fails, the next call tries it again */
    return false;
}

#endif
