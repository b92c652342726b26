/* Is between a tested program and the C library, by LD_PRELOAD: it counts growths of memory, reads of standard input and
   writes of standard output, and lets those fail, or shortens them, that the test picks. shim.py builds and drives it.

   What it is to do and what it counted is a table of numbers in the file that SHIM names, shared with the test. */
#define _GNU_SOURCE
#include <dlfcn.h>
#include <errno.h>
#include <fcntl.h>
#include <stdlib.h>
#include <string.h>
#include <sys/mman.h>
#include <unistd.h>

/* The table's numbers, in the order of shim.py. */
struct table {
    long armed;       /* whether growths count */
    long refuse;      /* the growth that fails, from 1; 0 for none, -1 for each */
    long least;       /* growths of fewer bytes do not count */
    long growths;
    long refused;
    long read_most;   /* the most bytes that a read gives; 0 for any number */
    long fail_read;   /* the read that fails, from 1; 0 for none */
    long reads;
    long read_bytes;  /* what the reads gave */
    long write_most;  /* the most bytes that a write takes; 0 for any number */
    long short_write; /* the write that takes one byte; 0 for none */
    long fail_write;  /* the write that fails; 0 for none */
    long writes;
    long written_bytes;
    long fail_error;  /* the error of what fails; 0 for a write that takes nothing, or a read at the end */
    long lines;       /* whether standard input is a list of lines, each with the growth that fails in its call */
    long fail_told;   /* whether writes to standard error fail */
    long later_calls; /* reads and writes of standard input and output that follow on one that failed */
};

static struct table none, *table = &none;
static int report = -1;
static void *(*libc_malloc)(size_t);
static void *(*libc_realloc)(void *, size_t);

__attribute__((constructor)) static void begin(void) {
    libc_malloc = dlsym(RTLD_NEXT, "malloc");
    libc_realloc = dlsym(RTLD_NEXT, "realloc");
    const char *name = getenv("SHIM");
    if (!name) return;
    int file = open(name, O_RDWR | O_CLOEXEC);
    void *place = file < 0 ? MAP_FAILED
        : mmap(0, sizeof(struct table), PROT_READ | PROT_WRITE, MAP_SHARED, file, 0);
    if (place == MAP_FAILED) _exit(99);
    close(file);
    table = place;
    const char *told = getenv("SHIM_REPORT");
    if (told) report = open(told, O_WRONLY | O_APPEND | O_CLOEXEC);
}

/* Whether this growth fails. */
static int refused(size_t bytes) {
    if (!table->armed || (long)bytes < table->least) return 0;
    table->growths++;
    if (table->refuse != -1 && table->growths != table->refuse) return 0;
    table->refused++;
    errno = ENOMEM;
    return 1;
}

void *malloc(size_t bytes) {
    if (!libc_malloc) libc_malloc = dlsym(RTLD_NEXT, "malloc");
    return refused(bytes) ? 0 : libc_malloc(bytes);
}

void *realloc(void *place, size_t bytes) {
    if (!libc_realloc) libc_realloc = dlsym(RTLD_NEXT, "realloc");
    return refused(bytes) ? 0 : libc_realloc(place, bytes);
}

/* The kernel's calls, without a growth of the C library's. */
static ssize_t plain_read(int file, void *place, size_t most) {
    static ssize_t (*call)(int, void *, size_t);
    if (!call) call = dlsym(RTLD_NEXT, "read");
    return call(file, place, most);
}

static ssize_t plain_write(int file, const void *place, size_t most) {
    static ssize_t (*call)(int, const void *, size_t);
    if (!call) call = dlsym(RTLD_NEXT, "write");
    return call(file, place, most);
}

/* Lines: `REFUSE LEAST CALL`. The program gets CALL in pieces: all but its last two bytes, these two one by one, its LF. A
   program that keeps the line in a buffer, which doubles where it is full, takes no memory for the LF, unless the line has
   just 8 bytes or a multiple of 8,192. So what is counted from there to the next read is what the call takes. */
enum { ROOM = 1 << 23 };
static char input[ROOM], line[ROOM];
static long from, upto, length, given, refuse_here, least_here;
static int is_open;

/* The next byte of standard input; -1 at its end. */
static int next_byte(void) {
    if (from == upto) {
        from = 0;
        upto = plain_read(0, input, ROOM);
        if (upto <= 0) return upto = 0, -1;
    }
    return (unsigned char)input[from++];
}

static long number(void) {
    long value = 0, sign = 1;
    for (int byte = next_byte(); byte != ' ' && byte != -1; byte = next_byte()) {
        if (byte == '-') sign = -1;
        else value = value * 10 + byte - '0';
    }
    return sign * value;
}

/* Takes the next line; 0 at the end of the input. */
static int next_line(void) {
    int byte = next_byte();
    length = given = 0;
    if (byte == -1) return 0;
    if (byte != '\n') {
        from--;
        refuse_here = number();
        least_here = number();
        byte = next_byte();
    }
    while (byte != '\n' && byte != -1 && length < ROOM - 1) {
        line[length++] = (char)byte;
        byte = next_byte();
    }
    line[length++] = '\n';
    return 1;
}

/* Writes a number to the report, in decimal. */
static void tell(long value, char behind) {
    char digits[24];
    int place = sizeof digits;
    digits[--place] = behind;
    do digits[--place] = (char)('0' + value % 10); while (value /= 10);
    plain_write(report, digits + place, sizeof digits - place);
}

static ssize_t read_line(char *place, size_t most) {
    if (is_open && given == length) {
        if (length > 1) tell(table->growths, ' '), tell(table->refused, '\n');
        is_open = table->armed = 0;
    }
    if (!is_open) {
        if (!next_line()) return 0;
        is_open = 1;
    }
    long piece = given < length - 3 ? length - 3 - given : 1;
    if (piece > (long)most) piece = (long)most;
    memcpy(place, line + given, (size_t)piece);
    given += piece;
    if (given == length && length > 1) {
        table->growths = table->refused = 0;
        table->refuse = refuse_here;
        table->least = least_here;
        table->armed = 1;
    }
    return piece;
}

static ssize_t counted_read(void *place, size_t most) {
    static int has_failed;
    table->later_calls += has_failed;
    if (++table->reads == table->fail_read) {
        has_failed = 1;
        errno = (int)table->fail_error;
        return table->fail_error ? -1 : 0;
    }
    if (table->read_most && most > (size_t)table->read_most) most = (size_t)table->read_most;
    ssize_t count = plain_read(0, place, most);
    if (count > 0) table->read_bytes += count;
    return count;
}

static int write_failed;

static ssize_t counted_write(const void *place, size_t most) {
    table->later_calls += write_failed;
    if (++table->writes == table->fail_write) {
        write_failed = 1;
        errno = (int)table->fail_error;
        return table->fail_error ? -1 : 0;
    }
    if (table->write_most && most > (size_t)table->write_most) most = (size_t)table->write_most;
    if (table->writes == table->short_write && most > 1) most = 1;
    ssize_t count = plain_write(1, place, most);
    if (count > 0) table->written_bytes += count;
    return count;
}

ssize_t read(int file, void *place, size_t most) {
    if (file != 0) return plain_read(file, place, most);
    if (table->lines) return read_line(place, most);
    table->later_calls += write_failed;
    return counted_read(place, most);
}

ssize_t write(int file, const void *place, size_t most) {
    if (file == 1 && !table->lines) return counted_write(place, most);
    if (file == 2 && table->fail_told) return errno = EIO, -1;
    return plain_write(file, place, most);
}

ssize_t __write(int file, const void *place, size_t most) {
    return write(file, place, most);
}
