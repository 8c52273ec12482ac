/* Calls of the system that fail, for bench/faults, which loads this before a program (LD_PRELOAD).
 *
 * FAULT has the kind of the call and its number from 1, as `memory 7`; with a `+` behind the number all later calls of the kind fail as well. Kinds:
 *   memory               a request for memory gives none
 *   open_missing, open   a file is not there, may not be opened
 *   read, write          a read or write of the program is an error
 *   short_read, short_write, no_write      it moves a single byte; it moves none
 *   cut_read, cut_write  all move ten bytes at most, and this one is an error (none, where the number is 0)
 * The file that FAULT_COUNTS names gets the numbers of requests, openings, reads and writes that were made, when the program ends.
 */
#include <errno.h>
#include <fcntl.h>
#include <stdarg.h>
#include <stdio.h>
#include <stdlib.h>
#include <string.h>
#include <sys/syscall.h>
#include <unistd.h>

extern void *__libc_malloc(size_t);
extern void *__libc_calloc(size_t, size_t);
extern void *__libc_realloc(void *, size_t);

enum { MEMORY, OPEN, READ, WRITE };
static unsigned long made[4];
static int has_begun;
static char kind[32];
static unsigned long first;
static int is_lasting;

__attribute__((constructor)) static void begin(void) {
    const char *fault = getenv("FAULT");
    char plus = 0;
    if (fault && sscanf(fault, "%31s %lu%c", kind, &first, &plus) >= 2)
        is_lasting = plus == '+';
    memset(made, 0, sizeof made);
    has_begun = 1;
}

__attribute__((destructor)) static void end(void) {
    const char *counts = getenv("FAULT_COUNTS");
    char line[100];
    has_begun = 0;
    if (!counts)
        return;
    int length = snprintf(line, sizeof line, "%lu %lu %lu %lu\n", made[MEMORY], made[OPEN], made[READ], made[WRITE]);
    int file = syscall(SYS_open, counts, O_WRONLY | O_CREAT | O_TRUNC, 0600);
    syscall(SYS_write, file, line, length);
    syscall(SYS_close, file);
}

/* counts a call */
static unsigned long count(int of) { return has_begun ? ++made[of] : 0; }

/* whether the call of this number is to fail in this way */
static int fails(const char *how, unsigned long number) {
    return number && first && !strcmp(kind, how) && (number == first || (is_lasting && number > first));
}

/* how much of so many bytes a call moves, of which those of the kind `cut` move ten at most */
static size_t moved(const char *short_kind, const char *cut, unsigned long number, size_t size) {
    if (fails(short_kind, number))
        return size ? 1 : 0;
    return !strcmp(kind, cut) && size > 10 ? 10 : size;
}

static int no_memory(void) {
    if (!fails("memory", count(MEMORY)))
        return 0;
    errno = ENOMEM;
    return 1;
}

void *malloc(size_t size) { return no_memory() ? NULL : __libc_malloc(size); }

void *calloc(size_t count, size_t size) { return no_memory() ? NULL : __libc_calloc(count, size); }

void *realloc(void *old, size_t size) { return no_memory() ? NULL : __libc_realloc(old, size); }

int open(const char *name, int flags, ...) {
    va_list more;
    va_start(more, flags);
    int mode = flags & O_CREAT ? va_arg(more, int) : 0;
    va_end(more);
    unsigned long number = count(OPEN);
    if (fails("open_missing", number)) { errno = ENOENT; return -1; }
    if (fails("open", number)) { errno = EACCES; return -1; }
    return syscall(SYS_open, name, flags, mode);
}

ssize_t read(int file, void *bytes, size_t size) {
    unsigned long number = count(READ);
    if (fails("read", number) || fails("cut_read", number)) { errno = EIO; return -1; }
    return syscall(SYS_read, file, bytes, moved("short_read", "cut_read", number, size));
}

ssize_t write(int file, const void *bytes, size_t size) {
    unsigned long number = count(WRITE);
    if (fails("write", number) || fails("cut_write", number)) { errno = EIO; return -1; }
    if (fails("no_write", number)) return 0;
    return syscall(SYS_write, file, bytes, moved("short_write", "cut_write", number, size));
}
