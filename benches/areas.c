// areas.c - the areas of a layer in plain C: reads a main file and its index file beside it, in centimetres, and prints
// for each polygon its record's number and twice its area without sign, as parcel_tool does.
//
//   areas sums MAIN        sums the areas as it reads, and keeps no ring, as parcel_tool does
//   areas rings MAIN       keeps all rings first
//
// The files are read whole by `read`, a coordinate is a double that must be a whole number of centimetres and counts in
// millimetres, and areas are 128-bit sums. It tests no more than that a record lies in the file, so it is what the
// reading has to do at least, and no program to trust.
#include <fcntl.h>
#include <stdint.h>
#include <stdio.h>
#include <stdlib.h>
#include <string.h>
#include <sys/stat.h>
#include <unistd.h>

struct bytes { unsigned char *at; size_t size; };

static void stop(const char *why) {
    fprintf(stderr, "%s\n", why);
    exit(1);
}

static struct bytes read_file(const char *path) {
    struct stat about;
    int file = open(path, O_RDONLY);
    if (file < 0 || fstat(file, &about) != 0) stop("the file cannot be opened");
    struct bytes all = { malloc((size_t)about.st_size + 1), 0 };
    if (!all.at) stop("no memory");
    for (;;) {
        ssize_t count = read(file, all.at + all.size, (size_t)about.st_size + 1 - all.size);
        if (count < 0) stop("the file cannot be read");
        if (count == 0) break;
        all.size += (size_t)count;
        if (all.size > (size_t)about.st_size) stop("the file grew");
    }
    close(file);
    return all;
}

static uint32_t big(const unsigned char *at) {
    uint32_t number;
    memcpy(&number, at, 4);
    return __builtin_bswap32(number);
}

static uint32_t little(const unsigned char *at) {
    uint32_t number;
    memcpy(&number, at, 4);
    return number;
}

static int64_t coordinate(const unsigned char *at) {
    double value;
    memcpy(&value, at, 8);
    if (!(value >= -1e10 && value <= 1e10)) stop("a coordinate is beyond the limit");
    int64_t whole = (int64_t)value;
    if ((double)whole != value) stop("a coordinate is no whole centimetre");
    return 10 * whole;
}

static char *put(char *out, unsigned __int128 number) {
    char digits[40];
    int count = 0;
    do { digits[count++] = (char)('0' + (int)(number % 10)); number /= 10; } while (number);
    while (count) *out++ = digits[--count];
    return out;
}

struct ring { uint32_t number, count; int64_t (*corners)[2]; unsigned __int128 area; };

static unsigned __int128 without_sign(__int128 sum) {
    return sum < 0 ? -(unsigned __int128)sum : (unsigned __int128)sum;
}

// The ring of so many points from a byte on, the last of which is the first again.
static struct ring read_ring(const unsigned char *at, uint32_t number, uint32_t points) {
    struct ring ring = { number, points - 1, malloc(16 * (size_t)(points - 1)), 0 };
    if (!ring.corners) stop("no memory");
    for (uint32_t i = 0; i + 1 < points; i++) {
        ring.corners[i][0] = coordinate(at + 16 * (size_t)i);
        ring.corners[i][1] = coordinate(at + 16 * (size_t)i + 8);
    }
    return ring;
}

static unsigned __int128 area_of(const struct ring *ring) {
    __int128 sum = 0;
    for (uint32_t i = 0; i < ring->count; i++) {
        const int64_t *from = ring->corners[i], *to = ring->corners[i + 1 < ring->count ? i + 1 : 0];
        sum += (__int128)from[0] * to[1] - (__int128)to[0] * from[1];
    }
    return without_sign(sum);
}

// The same ring's area alone.
static struct ring sum_ring(const unsigned char *at, uint32_t number, uint32_t points) {
    __int128 sum = 0;
    int64_t from_x = coordinate(at), from_y = coordinate(at + 8);
    for (uint32_t i = 1; i < points; i++) {
        int64_t to_x = coordinate(at + 16 * (size_t)i), to_y = coordinate(at + 16 * (size_t)i + 8);
        sum += (__int128)from_x * to_y - (__int128)to_x * from_y;
        from_x = to_x;
        from_y = to_y;
    }
    return (struct ring){ number, 0, 0, without_sign(sum) };
}

int main(int count, char **words) {
    if (count < 3) stop("areas sums|rings MAIN");
    int keeps = !strcmp(words[1], "rings");
    size_t length = strlen(words[2]);
    char *index_path = strdup(words[2]);
    if (length < 4 || !index_path) stop("no .shp");
    index_path[length - 1] = 'x';
    struct bytes file = read_file(words[2]), index = read_file(index_path);
    if (file.size < 100 || index.size < 100) stop("no header");
    size_t end = 2 * (size_t)big(file.at + 24), number = 1, kept = 0, room = 1024;
    if (end > file.size) stop("the file is short");
    struct ring *rings = malloc(room * sizeof *rings);
    if (!rings) stop("no memory");
    for (size_t at = 100; at + 12 <= end; number++) {
        size_t next = at + 8 + 2 * (size_t)big(file.at + at + 4);
        if (next > end || 100 + 8 * number > index.size || 2 * (size_t)big(index.at + 92 + 8 * number) != at)
            stop("a record does not lie in the file");
        if (little(file.at + at + 8) == 5) {
            uint32_t points = little(file.at + at + 48);
            if (points < 4 || at + 56 + 16 * (size_t)points != next) stop("a polygon of other points");
            if (kept == room) rings = realloc(rings, (room *= 2) * sizeof *rings);
            if (!rings) stop("no memory");
            const unsigned char *from = file.at + at + 56;
            if (memcmp(from, from + 16 * (size_t)(points - 1), 16)) stop("a ring is not closed");
            rings[kept++] = keeps ? read_ring(from, (uint32_t)number, points)
                                  : sum_ring(from, (uint32_t)number, points);
        }
        at = next;
    }
    char *text = malloc(56 * kept + 1), *out = text;
    if (!text) stop("no memory");
    for (size_t i = 0; i < kept; i++) {
        out = put(out, rings[i].number);
        *out++ = ' ';
        out = put(out, keeps ? area_of(&rings[i]) : rings[i].area);
        *out++ = '\n';
    }
    for (char *from = text; from < out;) {
        ssize_t put_count = write(1, from, (size_t)(out - from));
        if (put_count <= 0) stop("the output failed");
        from += put_count;
    }
    return 0;
}
