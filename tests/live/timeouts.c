/* timeouts.c: shortens the timeouts of sockets (SO_RCVTIMEO, SO_SNDTIMEO) by the pace of a clock. It is preloaded
 * beside libfaketime, which shortens all other waits, and takes the pace from the same variable: FAKETIME="+0 x40". */
#define _GNU_SOURCE
#include <stdlib.h>
#include <string.h>
#include <sys/socket.h>
#include <sys/syscall.h>
#include <sys/time.h>
#include <unistd.h>

enum { MICROSECONDS = 1000000 };

static long pace(void)
{
    const char *clock = getenv("FAKETIME"), *last = clock == NULL ? NULL : strchr(clock, 'x');
    const long pace = last == NULL ? 1 : strtol(last + 1, NULL, 10);
    return pace > 1 ? pace : 1;
}

/* Rounds up: no time stays no timeout, and no timeout becomes one. */
static struct timeval shortened(struct timeval wait)
{
    const long each = pace(), all = (wait.tv_sec * MICROSECONDS + wait.tv_usec + each - 1) / each;
    return (struct timeval){.tv_sec = all / MICROSECONDS, .tv_usec = all % MICROSECONDS};
}

int setsockopt(int fd, int level, int name, const void *value, socklen_t size)
{
    struct timeval wait;
    if (level == SOL_SOCKET && (name == SO_RCVTIMEO || name == SO_SNDTIMEO) && size == sizeof wait) {
        memcpy(&wait, value, sizeof wait);
        wait = shortened(wait);
        value = &wait;
    }
    return (int)syscall(SYS_setsockopt, fd, level, name, value, size);
}
