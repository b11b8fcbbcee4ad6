/*
 * Stands between a program and the C library (LD_PRELOAD), for tests/counted_calls.sh. It counts what the program asks the system for
 * and does not get, and can refuse some of it:
 *
 *   REFUSED_REQUEST=N   the Nth request for memory is refused
 *   REFUSED_FROM=N      so are the Nth and all after it
 *   FAILED_READ=N       the Nth read fails, and all after it
 *   SHORT_READS=N       a read gives N bytes at most
 *   FAILED_WRITE=N      the Nth write fails, and all after it
 *   SHORT_WRITES=N      a write takes N bytes at most
 *   COUNTED_CALLS=FILE  when the program ends by itself, a line is added to FILE: its status, the numbers of requests, of those that were
 *                       refused, 1 if the last request was one of them (else 0), reads, failed reads, writes, failed writes, and its words
 *
 * What the C library or the system refuses of itself is counted too. A write that takes nothing has failed.
 */
#define _GNU_SOURCE
#include <errno.h>
#include <fcntl.h>
#include <stdio.h>
#include <stdlib.h>
#include <string.h>
#include <sys/syscall.h>
#include <unistd.h>

extern void *__libc_malloc(size_t);
extern void *__libc_calloc(size_t, size_t);
extern void *__libc_realloc(void *, size_t);
extern void *__libc_memalign(size_t, size_t);

static long requests, refused, last_refused, reads, failed_reads, writes, failed_writes;
static long refused_request, refused_from, failed_read, short_reads, failed_write, short_writes;
static int word_count;
static char **words;

static long number_of(const char *name) {
    const char *number = getenv(name);
    return number ? atol(number) : 0;
}

/* The line is made in a buffer and written past this library, so that nothing more is counted. */
static void tell(int status, void *unused) {
    char line[512];
    const char *name = getenv("COUNTED_CALLS");
    int file, place, length;
    (void)unused;
    if (name == NULL) return;
    length = sprintf(line, "%d %ld %ld %ld %ld %ld %ld %ld", status, requests, refused, last_refused, reads, failed_reads, writes, failed_writes);
    for (place = 1; place < word_count && length + strlen(words[place]) + 2 < sizeof line; place++)
        length += sprintf(line + length, " %s", words[place]);
    line[length++] = '\n';
    file = syscall(SYS_openat, AT_FDCWD, name, O_WRONLY | O_CREAT | O_APPEND, 0600);
    if (file >= 0) syscall(SYS_write, file, line, length);
}

__attribute__((constructor)) static void begin(int argc, char **argv) {
    word_count = argc;
    words = argv;
    refused_request = number_of("REFUSED_REQUEST");
    refused_from = number_of("REFUSED_FROM");
    failed_read = number_of("FAILED_READ");
    short_reads = number_of("SHORT_READS");
    failed_write = number_of("FAILED_WRITE");
    short_writes = number_of("SHORT_WRITES");
    on_exit(tell, NULL);
    requests = refused = last_refused = 0;
}

static int is_refused(void) {
    requests++;
    return requests == refused_request || (refused_from > 0 && requests >= refused_from);
}

/* Counts what the request got. */
static void *counted(void *block) {
    last_refused = block == NULL;
    refused += last_refused;
    if (block == NULL) errno = ENOMEM;
    return block;
}

void *malloc(size_t size) {
    return counted(is_refused() ? NULL : __libc_malloc(size));
}

void *calloc(size_t count, size_t size) {
    return counted(is_refused() ? NULL : __libc_calloc(count, size));
}

void *realloc(void *old, size_t size) {
    return counted(is_refused() ? NULL : __libc_realloc(old, size));
}

void *memalign(size_t alignment, size_t size) {
    return counted(is_refused() ? NULL : __libc_memalign(alignment, size));
}

void *aligned_alloc(size_t alignment, size_t size) {
    return memalign(alignment, size);
}

int posix_memalign(void **block, size_t alignment, size_t size) {
    *block = memalign(alignment, size);
    return *block == NULL ? ENOMEM : 0;
}

/* How much of a piece passes where this much does at most, or all of it where no such number is given. */
static size_t passing(size_t size, long most) {
    return most > 0 && size > (size_t)most ? (size_t)most : size;
}

ssize_t read(int file, void *room, size_t size) {
    ssize_t count = -1;
    reads++;
    if (failed_read > 0 && reads >= failed_read)
        errno = EIO;
    else
        count = syscall(SYS_read, file, room, passing(size, short_reads));
    failed_reads += count < 0;
    return count;
}

ssize_t write(int file, const void *piece, size_t size) {
    ssize_t count = -1;
    writes++;
    if (failed_write > 0 && writes >= failed_write)
        errno = EIO;
    else
        count = syscall(SYS_write, file, piece, passing(size, short_writes));
    failed_writes += count < 0 || (count == 0 && size > 0);
    return count;
}

ssize_t __write(int file, const void *piece, size_t size) {
    return write(file, piece, size);
}
