/* Loaded before a program (LD_PRELOAD), it disturbs one call of its run. REFUSE_ALLOCATION=N refuses the Nth
 * allocation; with REFUSALS=M that one and those behind it, M in all. Of the reads of standard input, REFUSE_READ=N has
 * the Nth fail and SHORTEN_READ=N has it move one byte. Of the writes to standard output, so do REFUSE_WRITE=N and
 * SHORTEN_WRITE=N; with EMPTY_WRITE=N the Nth takes no byte. With COUNT_TO=FILE it writes to FILE how many allocations,
 * reads and writes there were. */
#define _GNU_SOURCE
#include <dlfcn.h>
#include <errno.h>
#include <fcntl.h>
#include <stdio.h>
#include <stdlib.h>
#include <sys/syscall.h>
#include <unistd.h>

extern void *__libc_malloc(size_t size);
extern void *__libc_realloc(void *old, size_t size);

static _Atomic long allocations, reads, writes;

static int is_chosen(const char *variable, long number) {
    const char *chosen = getenv(variable);
    return chosen && atol(chosen) == number;
}

static int is_refused(const char *variable, long number, int fault) {
    if (!is_chosen(variable, number)) return 0;
    errno = fault;
    return 1;
}

/* Whether the allocation of that number is one of those that are refused, one after the other. */
static int is_refused_in_turn(long number) {
    const char *first = getenv("REFUSE_ALLOCATION"), *all = getenv("REFUSALS");
    if (!first || number < atol(first) || number >= atol(first) + (all ? atol(all) : 1)) return 0;
    errno = ENOMEM;
    return 1;
}

static size_t room(const char *variable, long number, size_t size) {
    return is_chosen(variable, number) && size > 1 ? 1 : size;
}

void *malloc(size_t size) {
    return is_refused_in_turn(++allocations) ? NULL : __libc_malloc(size);
}

void *realloc(void *old, size_t size) {
    return is_refused_in_turn(++allocations) ? NULL : __libc_realloc(old, size);
}

ssize_t read(int file, void *bytes, size_t size) {
    ssize_t (*real)(int, void *, size_t) = (ssize_t(*)(int, void *, size_t))dlsym(RTLD_NEXT, "read");
    if (file != STDIN_FILENO) return real(file, bytes, size);
    if (is_refused("REFUSE_READ", ++reads, EIO)) return -1;
    return real(file, bytes, room("SHORTEN_READ", reads, size));
}

ssize_t write(int file, const void *bytes, size_t size) {
    ssize_t (*real)(int, const void *, size_t) = (ssize_t(*)(int, const void *, size_t))dlsym(RTLD_NEXT, "write");
    if (file != STDOUT_FILENO) return real(file, bytes, size);
    if (is_refused("REFUSE_WRITE", ++writes, EIO)) return -1;
    if (is_chosen("EMPTY_WRITE", writes)) return 0;
    return real(file, bytes, room("SHORTEN_WRITE", writes, size));
}

__attribute__((destructor)) static void tell(void) {
    static _Atomic int is_told;
    const char *name = is_told++ ? NULL : getenv("COUNT_TO");
    int file = name ? open(name, O_WRONLY | O_CREAT | O_TRUNC, 0644) : -1;
    char line[96];
    if (file < 0) return;
    int size = snprintf(line, sizeof line, "%ld %ld %ld\n", allocations, reads, writes);
    if (write(file, line, (size_t)size) < 0) abort();
    close(file);
}

/* Where a program ends so, no destructor runs. */
void _exit(int status) {
    tell();
    syscall(SYS_exit_group, status);
    __builtin_unreachable();
}
