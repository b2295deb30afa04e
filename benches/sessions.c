// sessions.c - a client of `parcel_tool session` in plain C, and the bare disk beside it. It prints nanoseconds.
//
//   sessions ask DESK LINES ANSWERS      sends each line of the file LINES to DESK.in and waits for its answer at
//                                        DESK.out
//   sessions flood DESK LINES ANSWERS    sends all lines while it reads their answers
//   sessions sync FILE BYTES COUNT       appends so many lines of so many bytes to FILE, each synchronised by fdatasync
//
// ask and flood write what was answered to the file ANSWERS, when the time is taken. Each line has one line as its
// answer.
#define _GNU_SOURCE
#include <errno.h>
#include <fcntl.h>
#include <poll.h>
#include <stdint.h>
#include <stdio.h>
#include <stdlib.h>
#include <string.h>
#include <sys/stat.h>
#include <time.h>
#include <unistd.h>

struct bytes { char *at; size_t size; };

static void stop(const char *why) {
    perror(why);
    exit(1);
}

static int64_t now(void) {
    struct timespec time;
    clock_gettime(CLOCK_MONOTONIC, &time);
    return (int64_t)time.tv_sec * 1000000000 + time.tv_nsec;
}

static struct bytes read_file(const char *path) {
    struct stat about;
    int file = open(path, O_RDONLY);
    if (file < 0 || fstat(file, &about) != 0) stop(path);
    struct bytes all = { malloc((size_t)about.st_size + 1), (size_t)about.st_size };
    for (size_t done = 0; done < all.size;) {
        ssize_t count = read(file, all.at + done, all.size - done);
        if (count <= 0) stop(path);
        done += (size_t)count;
    }
    close(file);
    return all;
}

static void write_all(int file, const char *at, size_t size) {
    while (size > 0) {
        ssize_t count = write(file, at, size);
        if (count < 0) stop("write");
        at += count;
        size -= (size_t)count;
    }
}

static int opened(const char *desk, const char *end, int how) {
    char path[4096];
    snprintf(path, sizeof path, "%s.%s", desk, end);
    int file = open(path, how);
    if (file < 0) stop(path);
    return file;
}

static size_t count_lines(const char *at, size_t size) {
    size_t count = 0;
    for (const char *end = at + size; (at = memchr(at, '\n', (size_t)(end - at))) != NULL; at++) count++;
    return count;
}

// What is answered, as it comes: room is made before.
struct answers { char *at; size_t size, room; };

static void take(int from, struct answers *answers) {
    if (answers->room - answers->size < 65536) {
        answers->room *= 2;
        answers->at = realloc(answers->at, answers->room);
        if (!answers->at) stop("realloc");
    }
    ssize_t count = read(from, answers->at + answers->size, 65536);
    if (count < 0 && errno == EAGAIN) return;
    if (count <= 0) stop("the desk ended");
    answers->size += (size_t)count;
}

static int64_t ask(int to, int from, struct bytes lines, struct answers *answers) {
    int64_t begun = now();
    for (char *at = lines.at, *end = at + lines.size; at < end;) {
        size_t size = (size_t)((char *)memchr(at, '\n', (size_t)(end - at)) + 1 - at);
        write_all(to, at, size);
        at += size;
        do take(from, answers); while (answers->at[answers->size - 1] != '\n');
    }
    return now() - begun;
}

static int64_t flood(int to, int from, struct bytes lines, struct answers *answers) {
    size_t sent = 0, wanted = count_lines(lines.at, lines.size), heard = 0;
    fcntl(to, F_SETFL, O_NONBLOCK);
    fcntl(from, F_SETFL, O_NONBLOCK);
    int64_t begun = now();
    while (heard < wanted) {
        struct pollfd ends[2] = { { from, POLLIN, 0 }, { to, POLLOUT, 0 } };
        if (poll(ends, sent < lines.size ? 2 : 1, -1) < 0) stop("poll");
        if (ends[0].revents) {
            size_t before = answers->size;
            take(from, answers);
            heard += count_lines(answers->at + before, answers->size - before);
        }
        if (sent < lines.size) {
            ssize_t count = write(to, lines.at + sent, lines.size - sent);
            if (count < 0 && errno != EAGAIN) stop("write");
            if (count > 0) sent += (size_t)count;
        }
    }
    return now() - begun;
}

static int64_t sync_lines(const char *path, size_t size, int count) {
    int file = open(path, O_WRONLY | O_CREAT | O_APPEND, 0644);
    char *line = malloc(size);
    if (file < 0 || !line) stop(path);
    memset(line, 'x', size);
    line[size - 1] = '\n';
    int64_t begun = now();
    for (int at = 0; at < count; at++) {
        write_all(file, line, size);
        if (fdatasync(file) != 0) stop("fdatasync");
    }
    return now() - begun;
}

int main(int count, char **words) {
    if (count != 5) {
        fputs("sessions ask|flood DESK LINES ANSWERS, or sessions sync FILE BYTES COUNT\n", stderr);
        return 2;
    }
    if (strcmp(words[1], "sync") == 0) {
        printf("%lld\n", (long long)sync_lines(words[2], (size_t)atol(words[3]), atoi(words[4])));
        return 0;
    }
    struct bytes lines = read_file(words[3]);
    struct answers answers = { malloc(1 << 20), 0, 1 << 20 };
    int to = opened(words[2], "in", O_WRONLY), from = opened(words[2], "out", O_RDONLY);
    int64_t took = (strcmp(words[1], "ask") == 0 ? ask : flood)(to, from, lines, &answers);
    int kept = open(words[4], O_WRONLY | O_CREAT | O_TRUNC, 0644);
    if (kept < 0) stop(words[4]);
    write_all(kept, answers.at, answers.size);
    printf("%lld\n", (long long)took);
    return 0;
}
