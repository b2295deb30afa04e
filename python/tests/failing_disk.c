/* Has calls on one file fail, as those of a disk that breaks: what LD_PRELOAD is for in test_session_disk.py.
   JOURNAL is the file's path, FAILS the kind of failure, AT the call from which on it fails, counted from 1.
   Where it is `dies`, the program is killed at that write. The file that takes its place at a start, JOURNAL.gandovel-next, counts as it. Where FAILS is `folder`, it is calls
   on the file's folder that fail. */
#define _GNU_SOURCE
#include <dlfcn.h>
#include <errno.h>
#include <signal.h>
#include <stdio.h>
#include <stdlib.h>
#include <string.h>
#include <unistd.h>

static int calls;

/* Whether this is the call of the file that fails, or one after it: 1 at the first, 2 behind it. */
static int fails(int fd, const char *first, const char *second)
{
    const char *kind = getenv("FAILS"), *wanted = getenv("JOURNAL"), *at = getenv("AT");
    char name[64], path[4096];
    if (!kind || !wanted || !at || (strcmp(kind, first) && strcmp(kind, second)))
        return 0;
    snprintf(name, sizeof name, "/proc/self/fd/%d", fd);
    ssize_t length = readlink(name, path, sizeof path - 1);
    if (length < 0)
        return 0;
    static const char next[] = ".gandovel-next";
    ssize_t ending = sizeof next - 1;
    if (length > ending && !memcmp(path + length - ending, next, ending))
        length -= ending;
    const char *end = strcmp(kind, "folder") ? NULL : strrchr(wanted, '/');
    size_t wanted_length = end ? (size_t)(end - wanted) : strlen(wanted);
    if ((size_t)length != wanted_length || memcmp(path, wanted, wanted_length))
        return 0;
    int call = __sync_add_and_fetch(&calls, 1);
    return call < atoi(at) ? 0 : call == atoi(at) ? 1 : 2;
}

ssize_t write(int fd, const void *bytes, size_t count)
{
    ssize_t (*real)(int, const void *, size_t) = dlsym(RTLD_NEXT, "write");
    int found = count > 1 ? fails(fd, "write", "half a write") : 0;
    if (count > 1 && fails(fd, "dies", "dies") == 1)
        raise(SIGKILL);
    if (!found && getenv("FAILS") && !strcmp(getenv("FAILS"), "short writes") && count > 1)
        return real(fd, bytes, count / 2);
    if (found == 1 && !strcmp(getenv("FAILS"), "half a write"))
        return real(fd, bytes, count / 2);
    if (found) {
        errno = found == 1 ? EIO : ENOSPC;
        return -1;
    }
    return real(fd, bytes, count);
}

int fdatasync(int fd)
{
    int (*real)(int) = dlsym(RTLD_NEXT, "fdatasync");
    if (fails(fd, "synchronise", "synchronise") == 1) {
        errno = EIO;
        return -1;
    }
    return real(fd);
}

int fsync(int fd)
{
    int (*real)(int) = dlsym(RTLD_NEXT, "fsync");
    if (fails(fd, "folder", "synchronise") == 1) {
        errno = EIO;
        return -1;
    }
    return real(fd);
}
