/* Preloaded by .ci/edges: makes the listing program's calls of `read` on standard input and of `write` on standard
 * output fail as the variable FAULTS plans it. A plan is any number of parts, each four words: `read` or `write`, the
 * first and the last call that it is for, counted from 1, and what these do. A number n: move at most n bytes. -n: fail
 * with errno n. `kill`: end the program. */
#define _GNU_SOURCE
#include <errno.h>
#include <signal.h>
#include <stdio.h>
#include <stdlib.h>
#include <string.h>
#include <sys/syscall.h>
#include <unistd.h>

static ssize_t planned(const char *call, long number, long fd, void *bytes, size_t count) {
    static long reads, writes;
    long made = number == SYS_read ? ++reads : ++writes;
    const char *plan = getenv("FAULTS");
    char name[8], what[16];
    long first, last;
    int length;
    for (; plan && sscanf(plan, "%7s %ld %ld %15s%n", name, &first, &last, what, &length) == 4; plan += length) {
        if (strcmp(name, call) || made < first || made > last)
            continue;
        if (!strcmp(what, "kill"))
            raise(SIGKILL);
        if (*what == '-') {
            errno = atoi(what + 1);
            return -1;
        }
        if (atol(what) == 0)
            return 0;
        if ((size_t)atol(what) < count)
            count = (size_t)atol(what);
    }
    return syscall(number, fd, bytes, count);
}

/* ./list starts other programs too. */
static int is_listing(void) {
    return !strcmp(program_invocation_short_name, "listing");
}

ssize_t read(int fd, void *bytes, size_t count) {
    return fd == 0 && is_listing() ? planned("read", SYS_read, fd, bytes, count) : syscall(SYS_read, fd, bytes, count);
}

ssize_t write(int fd, const void *bytes, size_t count) {
    return fd == 1 && is_listing() ? planned("write", SYS_write, fd, (void *)bytes, count)
                                   : syscall(SYS_write, fd, bytes, count);
}
