/* Writes down all that a program does to a journal and to the files beside it, in order, so that a test can make of it
   what a cut of power may leave: what LD_PRELOAD is for in test_session_cuts.py.
   JOURNAL is the journal's path, without links in it, and RECORD that of the file that is written. Of the
   synchronisations of the journal, number SYNC_FAILS fails, counted from 1 (none for 0), and of the writes to it number
   WRITE_FAILS, after a half. An event is a line `KIND NODE THREAD RESULT LENGTH`, and so many bytes and a line feed. */
#define _GNU_SOURCE
#include <dlfcn.h>
#include <errno.h>
#include <fcntl.h>
#include <pthread.h>
#include <stdarg.h>
#include <stdio.h>
#include <stdlib.h>
#include <string.h>
#include <sys/stat.h>
#include <unistd.h>

enum place { ELSEWHERE, IN_FILE, IN_FOLDER, IN_PIPE };
static pthread_mutex_t one_at_a_time = PTHREAD_MUTEX_INITIALIZER;
static int record = -1, syncs, writes;

static const char *journal(void)
{
    return getenv("JOURNAL") ? getenv("JOURNAL") : "";
}

/* Adds an event to the record. */
static void tell(char kind, unsigned long node, int result, const void *text, size_t length)
{
    static int (*real_open)(const char *, int, ...);
    static ssize_t (*real)(int, const void *, size_t);
    int before = errno;
    if (record < 0) {
        real_open = dlsym(RTLD_NEXT, "open");
        real = dlsym(RTLD_NEXT, "write");
        int opened = real_open(getenv("RECORD"), O_WRONLY | O_APPEND | O_CREAT | O_CLOEXEC, 0600);
        record = fcntl(opened, F_DUPFD_CLOEXEC, 200);
        close(opened);
    }
    char *event = malloc(length + 128);
    int head = sprintf(event, "%c %lu %lu %d %zu\n", kind, node, (unsigned long)pthread_self(), result, length);
    memcpy(event + head, text, length);
    event[head + length] = '\n';
    if (real(record, event, head + length + 1) < 0)
        abort();
    free(event);
    errno = before;
}

/* Where an open file is: the journal or beside it, with its number; its folder; or a pipe. */
static enum place place_of(int fd, struct stat *about)
{
    char name[64], path[4096];
    const char *wanted = journal();
    if (fd == record || fstat(fd, about))
        return ELSEWHERE;
    if (S_ISFIFO(about->st_mode))
        return IN_PIPE;
    snprintf(name, sizeof name, "/proc/self/fd/%d", fd);
    ssize_t length = readlink(name, path, sizeof path - 1);
    size_t folder = strrchr(wanted, '/') ? (size_t)(strrchr(wanted, '/') - wanted) : 0;
    if (length < 0)
        return ELSEWHERE;
    path[length] = 0;
    if (S_ISDIR(about->st_mode) && (size_t)length == folder && !memcmp(path, wanted, folder))
        return IN_FOLDER;
    return S_ISREG(about->st_mode) && !strncmp(path, wanted, strlen(wanted)) ? IN_FILE : ELSEWHERE;
}

static int is_beside(const char *path)
{
    return *journal() && !strncmp(path, journal(), strlen(journal()));
}

static const char *end_of(const char *path)
{
    return strrchr(path, '/') ? strrchr(path, '/') + 1 : path;
}

int open(const char *path, int flags, ...)
{
    int (*real)(const char *, int, ...) = dlsym(RTLD_NEXT, "open");
    va_list more;
    va_start(more, flags);
    int mode = flags & O_CREAT ? va_arg(more, int) : 0;
    va_end(more);
    if (!(flags & O_CREAT) || !is_beside(path))
        return real(path, flags, mode);
    pthread_mutex_lock(&one_at_a_time);
    int was_there = !access(path, F_OK), fd = real(path, flags, mode);
    struct stat about;
    if (fd >= 0 && !was_there && !fstat(fd, &about))
        tell('N', about.st_ino, 0, end_of(path), strlen(end_of(path)));
    pthread_mutex_unlock(&one_at_a_time);
    return fd;
}

ssize_t write(int fd, const void *bytes, size_t count)
{
    ssize_t (*real)(int, const void *, size_t) = dlsym(RTLD_NEXT, "write");
    struct stat about;
    enum place place = place_of(fd, &about);
    if (place == IN_PIPE) /* an answer counts as given a moment before it is */
        tell('A', 0, 0, bytes, count);
    if (place != IN_FILE)
        return real(fd, bytes, count);
    pthread_mutex_lock(&one_at_a_time);
    int fails = ++writes == atoi(getenv("WRITE_FAILS"));
    ssize_t taken = fails && count < 2 ? -1 : real(fd, bytes, fails ? count / 2 : count);
    if (taken > 0)
        tell('W', about.st_ino, 0, bytes, taken);
    if (fails) {
        errno = EIO;
        taken = -1;
    }
    pthread_mutex_unlock(&one_at_a_time);
    return taken;
}

static int synchronise(int fd, const char *name)
{
    int (*real)(int) = dlsym(RTLD_NEXT, name);
    struct stat about;
    enum place place = place_of(fd, &about);
    if (place != IN_FILE && place != IN_FOLDER)
        return real(fd);
    pthread_mutex_lock(&one_at_a_time);
    int fails = place == IN_FILE && ++syncs == atoi(getenv("SYNC_FAILS"));
    tell('B', about.st_ino, 0, &"FD"[place == IN_FOLDER], 1);
    pthread_mutex_unlock(&one_at_a_time);
    int result = fails ? -1 : real(fd);
    tell('E', about.st_ino, result, &"FD"[place == IN_FOLDER], 1);
    if (fails)
        errno = EIO;
    return result;
}

int fsync(int fd)
{
    return synchronise(fd, "fsync");
}

int fdatasync(int fd)
{
    return synchronise(fd, "fdatasync");
}

/* A call that changes names; `text` has both, or the one. */
static int renamed(char kind, const char *from, const char *to, int (*call)(const char *, const char *))
{
    char text[8192];
    pthread_mutex_lock(&one_at_a_time);
    int result = call(from, to), length = snprintf(text, sizeof text, "%s\n%s", end_of(from), end_of(to));
    if (!result && (is_beside(from) || is_beside(to)))
        tell(kind, 0, 0, text, length);
    pthread_mutex_unlock(&one_at_a_time);
    return result;
}

int rename(const char *from, const char *to)
{
    return renamed('R', from, to, dlsym(RTLD_NEXT, "rename"));
}

int link(const char *from, const char *to)
{
    return renamed('L', from, to, dlsym(RTLD_NEXT, "link"));
}

static int unlinked(const char *path, const char *path_again)
{
    int (*real)(const char *) = dlsym(RTLD_NEXT, "unlink");
    (void)path_again;
    return real(path);
}

int unlink(const char *path)
{
    return renamed('U', path, path, unlinked);
}

int ftruncate(int fd, off_t length)
{
    int (*real)(int, off_t) = dlsym(RTLD_NEXT, "ftruncate");
    struct stat about;
    if (place_of(fd, &about) == IN_FILE)
        abort(); /* a test would have to say what a cut leaves of it */
    return real(fd, length);
}
