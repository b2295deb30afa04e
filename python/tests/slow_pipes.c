/* Has a desk wait at each step of its pipes, so that a test can do something meanwhile: what LD_PRELOAD is for in
   test_session_next.py. PAUSE is how many milliseconds it waits: once it has read the end of a pipe, before it writes to
   one, once nobody reads what it writes, and before it closes one. */
#define _GNU_SOURCE
#include <dlfcn.h>
#include <errno.h>
#include <stdlib.h>
#include <sys/stat.h>
#include <time.h>
#include <unistd.h>

static int is_desks(int fd)
{
    struct stat about;
    return fd > STDERR_FILENO && getenv("PAUSE") && !fstat(fd, &about) && S_ISFIFO(about.st_mode);
}

static void pause_where(int is_due)
{
    int before = errno;
    if (is_due) {
        long long count = atoll(getenv("PAUSE"));
        struct timespec wait = {count / 1000, count % 1000 * 1000000};
        nanosleep(&wait, NULL);
    }
    errno = before;
}

ssize_t read(int fd, void *bytes, size_t count)
{
    ssize_t (*real)(int, void *, size_t) = dlsym(RTLD_NEXT, "read");
    ssize_t given = real(fd, bytes, count);
    pause_where(!given && is_desks(fd));
    return given;
}

ssize_t write(int fd, const void *bytes, size_t count)
{
    ssize_t (*real)(int, const void *, size_t) = dlsym(RTLD_NEXT, "write");
    pause_where(is_desks(fd));
    ssize_t taken = real(fd, bytes, count);
    pause_where(taken < 0 && errno == EPIPE && is_desks(fd));
    return taken;
}

int close(int fd)
{
    int (*real)(int) = dlsym(RTLD_NEXT, "close");
    pause_where(is_desks(fd));
    return real(fd);
}
