/* Devices that fail where a test wants it: LD_PRELOAD puts these functions in front of the C library's. The environment says
 * which call fails:
 *
 *   REFUSE=N     the Nth allocation gets no memory, counted from 1
 *   FAIL_READ=N  the Nth read fails
 *   ROOM=N       the standard output takes N octets, and then fails
 *   FULL=1       it then takes nothing, in place of failing
 *   FAIL_SOCKET=N, FAIL_SEND=N, FAIL_RECV=N
 *                the Nth socket can't be had, the Nth datagram is not sent, the Nth receipt fails
 *   LOSE=N       the Nth datagram is lost: it is taken, and comes nowhere
 *   SENT=FILE    datagrams that are taken are written there, as a trace
 *   REFUSED=FILE is made as something fails, so that who runs the program knows whether it came so far
 */
#define _GNU_SOURCE
#include <dlfcn.h>
#include <errno.h>
#include <fcntl.h>
#include <stdbool.h>
#include <stddef.h>
#include <stdlib.h>
#include <sys/socket.h>
#include <unistd.h>

/* The number that a variable gives, or -1. */
static long number(const char *name) {
    const char *text = getenv(name);
    return text ? atol(text) : -1;
}

/* Tells that something failed. */
static void tell(void) {
    const char *text = getenv("REFUSED");
    if (text) open(text, O_CREAT | O_WRONLY, 0600);
}

static bool is_refused(void) {
    static long count, refused = -2;
    if (refused == -2) refused = number("REFUSE");
    if (++count != refused) return false;
    tell();
    return true;
}

void *malloc(size_t size) {
    static void *(*given)(size_t);
    if (!given) *(void **)&given = dlsym(RTLD_NEXT, "malloc");
    return is_refused() ? NULL : given(size);
}

void *realloc(void *at, size_t size) {
    static void *(*given)(void *, size_t);
    if (!given) *(void **)&given = dlsym(RTLD_NEXT, "realloc");
    return is_refused() ? NULL : given(at, size);
}

ssize_t read(int from, void *into, size_t size) {
    static ssize_t (*given)(int, void *, size_t);
    static long count, failing = -2;
    if (!given) *(void **)&given = dlsym(RTLD_NEXT, "read");
    if (failing == -2) failing = number("FAIL_READ");
    if (++count != failing) return given(from, into, size);
    tell();
    errno = EIO;
    return -1;
}

ssize_t write(int to, const void *from, size_t size) {
    static ssize_t (*given)(int, const void *, size_t);
    static long room = -2;
    if (!given) *(void **)&given = dlsym(RTLD_NEXT, "write");
    if (room == -2) room = number("ROOM");
    if (to != STDOUT_FILENO || room < 0 || size == 0) return given(to, from, size);
    if ((size_t)room < size) size = (size_t)room;
    room -= (long)size;
    if (size > 0) return given(to, from, size);
    tell();
    if (getenv("FULL")) return 0;
    errno = ENOSPC;
    return -1;
}

int socket(int domain, int type, int protocol) {
    static int (*given)(int, int, int);
    static long count;
    if (!given) *(void **)&given = dlsym(RTLD_NEXT, "socket");
    if (++count != number("FAIL_SOCKET")) return given(domain, type, protocol);
    tell();
    errno = EMFILE;
    return -1;
}

/* Writes a datagram behind its length, where SENT wants it. */
static void note(const unsigned char *octets, size_t size) {
    const char *text = getenv("SENT");
    unsigned char length[2] = {(unsigned char)(size >> 8), (unsigned char)size};
    int to = text ? open(text, O_CREAT | O_WRONLY | O_APPEND, 0600) : -1;
    if (to < 0) return;
    if (write(to, length, 2) != 2 || write(to, octets, size) != (ssize_t)size) abort();
    close(to);
}

ssize_t send(int over, const void *from, size_t size, int flags) {
    static ssize_t (*given)(int, const void *, size_t, int);
    static long count;
    if (!given) *(void **)&given = dlsym(RTLD_NEXT, "send");
    if (++count == number("FAIL_SEND")) {
        tell();
        errno = ENETDOWN;
        return -1;
    }
    note(from, size);
    return count == number("LOSE") ? (ssize_t)size : given(over, from, size, flags);
}

ssize_t recv(int over, void *into, size_t size, int flags) {
    static ssize_t (*given)(int, void *, size_t, int);
    static long count;
    if (!given) *(void **)&given = dlsym(RTLD_NEXT, "recv");
    if (++count != number("FAIL_RECV")) return given(over, into, size, flags);
    tell();
    errno = ECONNREFUSED;
    return -1;
}
