// locate.h - what boost_locate.cpp and geos_locate.cpp have in common: the rings of a main file, the points that
// programs/bench_locate draws, and the line that is printed. Both are called NAME PARCELS POINTS WEST SOUTH EAST NORTH
// SIDE.
#pragma once
#include <chrono>
#include <cstdint>
#include <cstdio>
#include <cstdlib>
#include <cstring>
#include <vector>

struct Place { double x, y; };

// the rings of a main file with one ring a record, each closed
static std::vector<std::vector<Place>> rings_of(const char* path) {
  FILE* file = fopen(path, "rb");
  if (!file) { perror(path); exit(2); }
  fseek(file, 0, SEEK_END); size_t size = ftell(file); rewind(file);
  std::vector<unsigned char> bytes(size);
  if (fread(bytes.data(), 1, size, file) != size) exit(2);
  fclose(file);
  std::vector<std::vector<Place>> out;
  for (size_t at = 100; at + 8 <= size;) {
    size_t length = 2 * (((size_t)bytes[at + 4] << 24) | (bytes[at + 5] << 16) | (bytes[at + 6] << 8) | bytes[at + 7]);
    at += 8;
    int32_t points; memcpy(&points, &bytes[at + 40], 4);
    std::vector<Place> ring(points); memcpy((void*)ring.data(), &bytes[at + 48], 16 * (size_t)points);
    out.push_back(ring); at += length;
  }
  return out;
}

// points at random in a box, its sides included
struct Points {
  uint64_t state = 88172645463325252ull;
  int64_t west, south, east, north;
  uint64_t draw() { state ^= state << 13; state ^= state >> 7; state ^= state << 17; return state; }
  Place next() {
    int64_t x = west + (int64_t)(draw() % (uint64_t)(east - west + 1));
    int64_t y = south + (int64_t)(draw() % (uint64_t)(north - south + 1));
    return {(double)x, (double)y};
  }
};

static int64_t now() {
  auto passed = std::chrono::steady_clock::now().time_since_epoch();
  return std::chrono::duration_cast<std::chrono::microseconds>(passed).count();
}

// Builds the index of a main file's rings, asks `ids_at(index, place, ids)` for each point, and `meeting(index, low,
// high)`, how many boxes meet that one, for a square of the side at each point, where there is a side. It prints the
// microseconds of the building and of the search, how many points are inside, the sum of the ids, the microseconds of
// the squares, and how many boxes meet them.
template <class Index, class IdsAt, class Meeting>
static int measure(int count, char** words, IdsAt ids_at, Meeting meeting) {
  if (count != 8) { fprintf(stderr, "usage: %s PARCELS POINTS WEST SOUTH EAST NORTH SIDE\n", words[0]); return 2; }
  auto rings = rings_of(words[1]);
  int64_t begin = now();
  Index index(rings);
  int64_t built = now();
  Points points; points.west = atoll(words[3]); points.south = atoll(words[4]);
  points.east = atoll(words[5]); points.north = atoll(words[6]);
  Points squares = points;
  uint64_t inside = 0, sum = 0, meet = 0; std::vector<size_t> ids;
  for (int64_t left = atoll(words[2]); left > 0; left--) {
    ids.clear(); ids_at(index, points.next(), ids);
    inside += !ids.empty();
    for (size_t id : ids) sum += id;
  }
  int64_t located = now(), side = atoll(words[7]);
  for (int64_t left = side ? atoll(words[2]) : 0; left > 0; left--) {
    Place low = squares.next();
    meet += meeting(index, low, {low.x + side, low.y + side});
  }
  printf("%lld %lld %llu %llu %lld %llu\n", (long long)(built - begin), (long long)(located - built),
         (unsigned long long)inside, (unsigned long long)sum, (long long)(now() - located), (unsigned long long)meet);
  return 0;
}
