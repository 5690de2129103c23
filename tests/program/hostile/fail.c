/* Lets the devices of the program that it is loaded into fail, as these variables say:
   FAILING_KIND   "read", "write", "accept" or "thread": the calls that are meant. Reads and writes are those on standard
                  input and output, or on sockets if FAILING_SOCKETS is set
   FAILING_CALL   the number of the call that fails, from 1
   FAILING_COUNT  how many calls fail from there on (1)
   FAILING_ERROR  the number of its error (EIO)
   FAILING_PIECE  how many bytes a call moves at most
   FAILING_ROOM   how many bytes writes take in all, before one fails for want of room
   A call that fails writes the line "failed" to standard error.
   With the kind "clock", every other call for the time of day, from the call of that number on, gives a year more. */
#define _GNU_SOURCE
#include <dlfcn.h>
#include <errno.h>
#include <pthread.h>
#include <stdatomic.h>
#include <stdlib.h>
#include <string.h>
#include <sys/socket.h>
#include <sys/syscall.h>
#include <sys/uio.h>
#include <time.h>
#include <unistd.h>

static struct {
    int is_set;
    char kind;
    int sockets;
    unsigned long call, count, error, piece;
    long room;
} plan;

static atomic_ulong calls;
static atomic_long taken;

static unsigned long number(const char *name, unsigned long otherwise)
{
    const char *text = getenv(name);
    return text == NULL ? otherwise : strtoul(text, NULL, 10);
}

__attribute__((constructor)) static void prepare(void)
{
    const char *kind = getenv("FAILING_KIND");
    plan.kind = kind == NULL ? 0 : kind[0];
    plan.sockets = getenv("FAILING_SOCKETS") != NULL;
    plan.call = number("FAILING_CALL", 0);
    plan.count = number("FAILING_COUNT", 1);
    plan.error = number("FAILING_ERROR", EIO);
    plan.piece = number("FAILING_PIECE", 0);
    plan.room = (long)number("FAILING_ROOM", -1UL);
    plan.is_set = 1;
}

static long fail(unsigned long error)
{
    syscall(SYS_write, 2, "failed\n", 7);
    errno = (int)error;
    return -1;
}

/* Whether these calls on this device are meant. */
static int is_meant(char kind, int device)
{
    return plan.is_set && plan.kind == kind && (plan.sockets ? device > 2 : device == (kind == 'w'));
}

/* Whether this call, one of those that are meant, is one that fails. */
static int is_failing(void)
{
    unsigned long call = atomic_fetch_add(&calls, 1) + 1;
    return plan.call > 0 && call >= plan.call && call - plan.call < plan.count;
}

/* How many bytes this call is to move, or -1 if it fails. */
static long share(char kind, int device, size_t size)
{
    if (!is_meant(kind, device)) {
        return (long)size;
    }
    if (is_failing()) {
        return fail(plan.error);
    }
    if (plan.piece > 0 && size > plan.piece) {
        size = plan.piece;
    }
    if (plan.room >= 0 && size > 0) {
        long room = plan.room - atomic_load(&taken);
        if (room <= 0) {
            return fail(ENOSPC);
        }
        size = size < (size_t)room ? size : (size_t)room;
        atomic_fetch_add(&taken, (long)size);
    }
    return (long)size;
}

ssize_t read(int device, void *bytes, size_t size)
{
    long count = share('r', device, size);
    return count < 0 ? -1 : syscall(SYS_read, device, bytes, count);
}

ssize_t recvfrom(int device, void *bytes, size_t size, int flags, struct sockaddr *from, socklen_t *length)
{
    long count = share('r', device, size);
    return count < 0 ? -1 : syscall(SYS_recvfrom, device, bytes, count, flags, from, length);
}

ssize_t recv(int device, void *bytes, size_t size, int flags)
{
    return recvfrom(device, bytes, size, flags, NULL, NULL);
}

ssize_t write(int device, const void *bytes, size_t size)
{
    long count = share('w', device, size);
    return count < 0 ? -1 : syscall(SYS_write, device, bytes, count);
}

ssize_t sendto(int device, const void *bytes, size_t size, int flags, const struct sockaddr *to, socklen_t length)
{
    long count = share('w', device, size);
    return count < 0 ? -1 : syscall(SYS_sendto, device, bytes, count, flags, to, length);
}

ssize_t send(int device, const void *bytes, size_t size, int flags)
{
    return sendto(device, bytes, size, flags, NULL, 0);
}

/* Of several pieces one is moved. */
static struct iovec first_of(const struct iovec *pieces, int count)
{
    struct iovec none = {NULL, 0};
    for (int place = 0; place < count; place++) {
        if (pieces[place].iov_len > 0) {
            return pieces[place];
        }
    }
    return none;
}

ssize_t writev(int device, const struct iovec *pieces, int count)
{
    struct iovec piece = first_of(pieces, count);
    return is_meant('w', device) ? write(device, piece.iov_base, piece.iov_len) : syscall(SYS_writev, device, pieces, count);
}

ssize_t readv(int device, const struct iovec *pieces, int count)
{
    struct iovec piece = first_of(pieces, count);
    return is_meant('r', device) ? read(device, piece.iov_base, piece.iov_len) : syscall(SYS_readv, device, pieces, count);
}

ssize_t sendmsg(int device, const struct msghdr *message, int flags)
{
    struct iovec piece = first_of(message->msg_iov, (int)message->msg_iovlen);
    if (is_meant('w', device) && message->msg_controllen == 0) {
        return sendto(device, piece.iov_base, piece.iov_len, flags, NULL, 0);
    }
    return syscall(SYS_sendmsg, device, message, flags);
}

ssize_t recvmsg(int device, struct msghdr *message, int flags)
{
    struct iovec piece = first_of(message->msg_iov, (int)message->msg_iovlen);
    if (is_meant('r', device)) {
        message->msg_controllen = 0;
        message->msg_flags = 0;
        return recvfrom(device, piece.iov_base, piece.iov_len, flags, message->msg_name, &message->msg_namelen);
    }
    return syscall(SYS_recvmsg, device, message, flags);
}

int accept4(int device, struct sockaddr *from, socklen_t *length, int flags)
{
    if (is_meant('a', device) && is_failing()) {
        return (int)fail(plan.error);
    }
    return (int)syscall(SYS_accept4, device, from, length, flags);
}

int accept(int device, struct sockaddr *from, socklen_t *length)
{
    return accept4(device, from, length, 0);
}

int pthread_create(pthread_t *thread, const pthread_attr_t *how, void *(*body)(void *), void *given)
{
    int (*create)(pthread_t *, const pthread_attr_t *, void *(*)(void *), void *);
    *(void **)&create = dlsym(RTLD_NEXT, "pthread_create");
    if (plan.is_set && plan.kind == 't' && is_failing()) {
        fail(EAGAIN);
        return EAGAIN;
    }
    return create(thread, how, body, given);
}

int clock_gettime(clockid_t clock, struct timespec *now)
{
    int failed = (int)syscall(SYS_clock_gettime, clock, now);
    if (plan.is_set && plan.kind == 'c' && clock == CLOCK_REALTIME) {
        unsigned long call = atomic_fetch_add(&calls, 1) + 1;
        if (call >= plan.call && (call - plan.call) % 2 == 0) {
            now->tv_sec += 365 * 24 * 60 * 60;
        }
    }
    return failed;
}
