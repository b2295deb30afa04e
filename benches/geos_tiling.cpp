// geos_tiling.cpp - what GEOS says of a layer of parcels in a city: geos_tiling union|overlaps CITY.shp PARCELS.shp
//
// union: whether each parcel is valid, the parcels' areas sum to the city's, and their union equals the city.
// overlaps: how many pairs of parcels have interiors that meet, by relate, over pairs whose boxes meet.
#include <geos_c.h>
#include <cstdarg>
#include <cstdint>
#include <cstdio>
#include <cstdlib>
#include <cstring>
#include <string>
#include <vector>

static void message(const char* format, ...) {
  va_list words; va_start(words, format); vfprintf(stderr, format, words); fputc('\n', stderr); va_end(words);
}

// the polygons of a main file with one ring a record
static std::vector<GEOSGeometry*> polygons(const char* path) {
  FILE* file = fopen(path, "rb");
  if (!file) { perror(path); exit(2); }
  fseek(file, 0, SEEK_END); size_t size = ftell(file); rewind(file);
  std::vector<unsigned char> bytes(size);
  if (fread(bytes.data(), 1, size, file) != size) exit(2);
  fclose(file);
  std::vector<GEOSGeometry*> out;
  for (size_t at = 100; at + 8 <= size;) {
    size_t length = 2 * (((size_t)bytes[at + 4] << 24) | (bytes[at + 5] << 16) | (bytes[at + 6] << 8) | bytes[at + 7]);
    at += 8;
    int32_t points; memcpy(&points, &bytes[at + 40], 4);
    GEOSCoordSequence* list = GEOSCoordSeq_create(points, 2);
    for (int32_t i = 0; i < points; i++) {
      double place[2]; memcpy(place, &bytes[at + 48 + 16 * (size_t)i], 16);
      GEOSCoordSeq_setX(list, i, place[0]); GEOSCoordSeq_setY(list, i, place[1]);
    }
    out.push_back(GEOSGeom_createPolygon(GEOSGeom_createLinearRing(list), nullptr, 0));
    at += length;
  }
  return out;
}

static int unions(std::vector<GEOSGeometry*>& city, std::vector<GEOSGeometry*>& parcels) {
  double whole, sum = 0; GEOSArea(city[0], &whole);
  size_t valid = 0;
  for (auto parcel : parcels) { double area; GEOSArea(parcel, &area); sum += area; valid += GEOSisValid(parcel) == 1; }
  GEOSGeometry* all = GEOSGeom_createCollection(GEOS_GEOMETRYCOLLECTION, parcels.data(), parcels.size());
  GEOSGeometry* joined = GEOSUnaryUnion(all);
  printf("%zu of %zu valid, areas less the city's %.1f, union %s the city\n", valid, parcels.size(), sum - whole,
         joined && GEOSEquals(joined, city[0]) == 1 ? "equals" : "is not");
  return 0;
}

static void keep(void* item, void* found) { ((std::vector<size_t>*)found)->push_back((size_t)item); }

static int overlaps(std::vector<GEOSGeometry*>& parcels) {
  GEOSSTRtree* tree = GEOSSTRtree_create(10);
  for (size_t i = 0; i < parcels.size(); i++) GEOSSTRtree_insert(tree, parcels[i], (void*)i);
  size_t meeting = 0; std::vector<size_t> found;
  for (size_t i = 0; i < parcels.size(); i++) {
    found.clear(); GEOSSTRtree_query(tree, parcels[i], keep, &found);
    for (size_t j : found) meeting += j > i && GEOSRelatePattern(parcels[i], parcels[j], "T********") == 1;
  }
  printf("%zu pairs of parcels meet\n", meeting);
  return 0;
}

int main(int count, char** words) {
  if (count != 4) { fprintf(stderr, "usage: geos_tiling union|overlaps CITY PARCELS\n"); return 2; }
  initGEOS(message, message);
  auto city = polygons(words[2]), parcels = polygons(words[3]);
  return std::string(words[1]) == "union" ? unions(city, parcels) : overlaps(parcels);
}
