// geos_pairs.cpp - the pairs of a parcel and a zone whose interiors meet, as GEOS has them: geos_pairs relate|touch
// PARCELS.shp ZONES.shp
//
// The pairs whose boxes meet are found by an STR tree of the zones' boxes, and told apart by relate (the first entry of
// the matrix), or by intersects of the prepared parcel and not touches. On standard output `pair ID ZONE` for each,
// ascending, on standard error the microseconds of the search, without the reading.
#include <geos_c.h>
#include <algorithm>
#include <chrono>
#include <cstdarg>
#include <cstdint>
#include <cstdio>
#include <cstdlib>
#include <cstring>
#include <vector>

static void message(const char* format, ...) {
  va_list words; va_start(words, format); vfprintf(stderr, format, words); fputc('\n', stderr); va_end(words);
}

// the polygons of a main file with one ring a record
static std::vector<GEOSGeometry*> polygons(const char* path) {
  FILE* file = fopen(path, "rb");
  if (!file) { perror(path); exit(2); }
  fseek(file, 0, SEEK_END); size_t size = ftell(file); rewind(file);
  std::vector<unsigned char> bytes(size);
  if (fread(bytes.data(), 1, size, file) != size) exit(2);
  fclose(file);
  std::vector<GEOSGeometry*> out;
  for (size_t at = 100; at + 8 <= size;) {
    size_t length = 2 * (((size_t)bytes[at + 4] << 24) | (bytes[at + 5] << 16) | (bytes[at + 6] << 8) | bytes[at + 7]);
    at += 8;
    int32_t points; memcpy(&points, &bytes[at + 40], 4);
    GEOSCoordSequence* list = GEOSCoordSeq_create(points, 2);
    for (int32_t i = 0; i < points; i++) {
      double place[2]; memcpy(place, &bytes[at + 48 + 16 * (size_t)i], 16);
      GEOSCoordSeq_setX(list, i, place[0]); GEOSCoordSeq_setY(list, i, place[1]);
    }
    out.push_back(GEOSGeom_createPolygon(GEOSGeom_createLinearRing(list), nullptr, 0));
    at += length;
  }
  return out;
}

static void keep(void* item, void* found) { ((std::vector<size_t>*)found)->push_back((size_t)item); }

static bool meet(bool by_relate, const GEOSPreparedGeometry* prepared, const GEOSGeometry* parcel,
                 const GEOSGeometry* zone) {
  if (by_relate) return GEOSRelatePattern(parcel, zone, "T********") == 1;
  return GEOSPreparedIntersects(prepared, zone) == 1 && GEOSTouches(parcel, zone) == 0;
}

int main(int count, char** words) {
  if (count != 4) { fprintf(stderr, "geos_pairs relate|touch PARCELS.shp ZONES.shp\n"); return 2; }
  initGEOS(message, message);
  bool by_relate = !strcmp(words[1], "relate");
  std::vector<GEOSGeometry*> parcels = polygons(words[2]), zones = polygons(words[3]);
  auto begin = std::chrono::steady_clock::now();
  GEOSSTRtree* tree = GEOSSTRtree_create(10);
  for (size_t i = 0; i < zones.size(); i++) GEOSSTRtree_insert(tree, zones[i], (void*)i);
  std::vector<std::pair<size_t, size_t>> pairs; std::vector<size_t> found;
  for (size_t i = 0; i < parcels.size(); i++) {
    found.clear(); GEOSSTRtree_query(tree, parcels[i], keep, &found);
    const GEOSPreparedGeometry* prepared = GEOSPrepare(parcels[i]);
    for (size_t j : found) if (meet(by_relate, prepared, parcels[i], zones[j])) pairs.push_back({i + 1, j + 1});
    GEOSPreparedGeom_destroy(prepared);
  }
  std::sort(pairs.begin(), pairs.end());
  auto took = std::chrono::duration_cast<std::chrono::microseconds>(std::chrono::steady_clock::now() - begin);
  for (auto& pair : pairs) printf("pair %zu %zu\n", pair.first, pair.second);
  fprintf(stderr, "%lld\n", (long long)took.count());
  return 0;
}
