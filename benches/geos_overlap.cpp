// geos_overlap.cpp - GEOS's relate, and with a word on the command line its intersects && !touches, over the pairs that
// standard input holds, in the form that bench_overlap reads. Each answer line is the group's name, the number of its
// pairs, the nanoseconds of the best round of relate and of intersects && !touches, and a 0 or 1 for each pair by the
// first and by the second. Without the word the second has 0 nanoseconds and the answers of the first.
#include <geos_c.h>
#include <chrono>
#include <cstdarg>
#include <cstdio>
#include <iostream>
#include <sstream>
#include <string>
#include <utility>
#include <vector>

static void message(const char* format, ...) {
  va_list words; va_start(words, format); vfprintf(stderr, format, words); fputc('\n', stderr); va_end(words);
}

static GEOSGeometry* polygon(const std::vector<double>& numbers, size_t from, size_t to) {
  size_t count = to - from;
  GEOSCoordSequence* corners = GEOSCoordSeq_create(count + 1, 2);
  for (size_t i = 0; i <= count; i++) {
    size_t k = from + i % count;
    GEOSCoordSeq_setXY(corners, i, numbers[2 * k], numbers[2 * k + 1]);
  }
  return GEOSGeom_createPolygon(GEOSGeom_createLinearRing(corners), nullptr, 0);
}

typedef std::vector<std::pair<GEOSGeometry*, GEOSGeometry*>> Pairs;

static bool relates(const GEOSGeometry* a, const GEOSGeometry* b) {
  char* matrix = GEOSRelate(a, b);
  bool meets = matrix && matrix[0] != 'F';
  GEOSFree(matrix);
  return meets;
}

static bool intersects(const GEOSGeometry* a, const GEOSGeometry* b) {
  return GEOSIntersects(a, b) == 1 && GEOSTouches(a, b) == 0;
}

template <typename Test> static long long best(const Pairs& pairs, int rounds, Test test, std::string& answers) {
  long long least = -1;
  for (int round = 0; round < rounds; round++) {
    answers.clear();
    auto begin = std::chrono::steady_clock::now();
    for (auto& pair : pairs) answers.push_back(test(pair.first, pair.second) ? '1' : '0');
    auto passed = std::chrono::steady_clock::now() - begin;
    long long taken = std::chrono::duration_cast<std::chrono::nanoseconds>(passed).count();
    if (least < 0 || taken < least) least = taken;
  }
  return least;
}

static void finish(const std::string& name, int rounds, Pairs& pairs, bool both) {
  if (pairs.empty()) return;
  std::string related, touching;
  long long relate = best(pairs, rounds, relates, related);
  long long touch = both ? best(pairs, rounds, intersects, touching) : 0;
  if (!both) touching = related;
  std::cout << name << ' ' << pairs.size() << ' ' << relate << ' ' << touch << ' ' << related << ' ' << touching
            << '\n';
  for (auto& pair : pairs) { GEOSGeom_destroy(pair.first); GEOSGeom_destroy(pair.second); }
  pairs.clear();
}

int main(int count, char**) {
  bool both = count > 1;
  initGEOS(message, message);
  std::string line, name; int rounds = 0; Pairs pairs;
  while (std::getline(std::cin, line)) {
    std::istringstream words(line);
    if (line[0] == '#') {
      finish(name, rounds, pairs, both);
      words.ignore(); words >> name >> rounds;
      continue;
    }
    size_t corners; words >> corners;
    std::vector<double> numbers; double number;
    while (words >> number) numbers.push_back(number);
    pairs.push_back({polygon(numbers, 0, corners), polygon(numbers, corners, numbers.size() / 2)});
  }
  finish(name, rounds, pairs, both);
}
