/* A client of one desk of `parcel_tool session`, in C with POSIX alone, as an example of docs/protocol.md.
 *
 *     cc -O2 -Wall -Wextra -o desk_client desk_client.c
 *     ./desk_client anna < lines > answers
 *
 * It sends each line of standard input to the desk's pipe anna.in, waits for its answer on anna.out, and prints that.
 * Status 0: each line was answered, and none by `error:`. Status 1: one was. Status 2: there is no such desk, or the
 * session ended before all were answered; standard error says after how many.
 */
#define _POSIX_C_SOURCE 200809L
#include <errno.h>
#include <fcntl.h>
#include <signal.h>
#include <stdio.h>
#include <stdlib.h>
#include <string.h>
#include <time.h>
#include <unistd.h>

/* The most bytes of a line, its line feed included. An answer may be longer: a parcel has up to 4,096 corners. */
enum { LONGEST_LINE = 1048576, SECONDS_TO_WAIT = 10 };

struct desk {
    int in;    /* lines go in here */
    FILE *out; /* answers come out here */
};

static void fail(const char *what, const char *name) {
    fprintf(stderr, "desk_client: %s%s: %s\n", what, name, strerror(errno));
    exit(2);
}

static char *joined(const char *name, const char *ending) {
    char *path = malloc(strlen(name) + strlen(ending) + 1);
    if (path == NULL) fail("no memory for ", name);
    strcpy(path, name);
    return strcat(path, ending);
}

/* Opens NAME.in for writing. Without O_NONBLOCK it would wait for ever where no session reads the pipe. */
static int open_in(const char *path) {
    const struct timespec pause = {0, 50 * 1000 * 1000};
    for (int turn = 0; turn < SECONDS_TO_WAIT * 20; turn++) {
        int in = open(path, O_WRONLY | O_NONBLOCK);
        if (in >= 0) {
            int flags = fcntl(in, F_GETFL);
            if (flags < 0 || fcntl(in, F_SETFL, flags & ~O_NONBLOCK) < 0) fail("cannot use ", path);
            return in;
        }
        if (errno != ENXIO) break; /* ENXIO: nobody reads it yet */
        nanosleep(&pause, NULL);
    }
    fail("no session serves ", path);
    return -1;
}

/* The order matters: NAME.in first, then NAME.out, and a line only once both are open. */
static struct desk open_desk(const char *name) {
    struct desk desk;
    char *in = joined(name, ".in"), *out = joined(name, ".out");
    desk.in = open_in(in);
    desk.out = fopen(out, "r");
    if (desk.out == NULL) fail("cannot read ", out);
    free(in);
    free(out);
    return desk;
}

/* Writes all bytes; a pipe may take fewer at a time. */
static int send_all(int to, const char *bytes, size_t count) {
    while (count > 0) {
        ssize_t sent = write(to, bytes, count);
        if (sent < 0 && errno == EINTR) continue;
        if (sent < 0) return -1;
        bytes += sent;
        count -= (size_t)sent;
    }
    return 0;
}

/* Asks one line, whose line feed it has, and prints the answer. 0 answered, 1 answered by an error, -1 no answer. */
static int ask(struct desk *desk, const char *line, size_t length, char **answer, size_t *room) {
    if (send_all(desk->in, line, length) < 0) return -1;
    ssize_t got = getline(answer, room, desk->out);
    if (got < 1 || (*answer)[got - 1] != '\n') return -1; /* torn off: whether it was carried out is not known */
    fputs(*answer, stdout);
    return strncmp(*answer, "error: ", 7) == 0;
}

int main(int count, char **words) {
    char *line = NULL, *answer = NULL;
    size_t line_room = 0, answer_room = 0;
    unsigned long answered = 0;
    int status = 0;
    ssize_t length;

    if (count != 2) {
        fputs("usage: desk_client NAME < lines\n", stderr);
        return 2;
    }
    signal(SIGPIPE, SIG_IGN); /* a session that ends is told by EPIPE, not by a signal */
    struct desk desk = open_desk(words[1]);
    while ((length = getline(&line, &line_room, stdin)) > 0) {
        if (length > LONGEST_LINE || line[length - 1] != '\n' || memchr(line, '\0', (size_t)length) != NULL) {
            fprintf(stderr, "desk_client: line %lu is too long, has no line feed, or has a zero byte\n", answered + 1);
            status = 2;
            break;
        }
        int said = ask(&desk, line, (size_t)length, &answer, &answer_room);
        if (said < 0) {
            fprintf(stderr, "desk_client: the session ended; %lu lines were answered\n", answered);
            status = 2;
            break;
        }
        answered++;
        if (said == 1 && status == 0) status = 1;
    }
    close(desk.in);
    /* The session closes its end once it has seen ours: then the next client may come. */
    while (getline(&answer, &answer_room, desk.out) > 0) continue;
    fclose(desk.out);
    free(line);
    free(answer);
    return fflush(stdout) == 0 ? status : 2;
}
