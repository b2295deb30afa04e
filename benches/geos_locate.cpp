// geos_locate.cpp - in which parcel GEOS says that random points are: an STR tree, and the prepared parcels' `contains`
// for those whose boxes hold the point. A point on an edge is in none. And how many boxes meet one. See locate.h.
#include <geos_c.h>
#include <cstdarg>
#include "locate.h"

static void message(const char* format, ...) {
  va_list words; va_start(words, format); vfprintf(stderr, format, words); fputc('\n', stderr); va_end(words);
}

static void keep(void* item, void* found) { ((std::vector<size_t>*)found)->push_back((size_t)item); }

struct Index {
  std::vector<const GEOSPreparedGeometry*> prepared;
  GEOSSTRtree* tree = GEOSSTRtree_create(10);
  std::vector<size_t> found;
  explicit Index(const std::vector<std::vector<Place>>& rings) {
    for (auto& ring : rings) {
      GEOSCoordSequence* list = GEOSCoordSeq_create(ring.size(), 2);
      for (size_t i = 0; i < ring.size(); i++) {
        GEOSCoordSeq_setX(list, i, ring[i].x);
        GEOSCoordSeq_setY(list, i, ring[i].y);
      }
      GEOSGeometry* polygon = GEOSGeom_createPolygon(GEOSGeom_createLinearRing(list), nullptr, 0);
      GEOSSTRtree_insert(tree, polygon, (void*)prepared.size());
      prepared.push_back(GEOSPrepare(polygon));
    }
    GEOSGeometry* corner = GEOSGeom_createPointFromXY(0, 0);
    GEOSSTRtree_query(tree, corner, keep, &found);  // the first query builds the tree
  }
};

static void ids_at(Index& index, Place place, std::vector<size_t>& ids) {
  GEOSGeometry* point = GEOSGeom_createPointFromXY(place.x, place.y);
  index.found.clear(); GEOSSTRtree_query(index.tree, point, keep, &index.found);
  for (size_t i : index.found) if (GEOSPreparedContains(index.prepared[i], point) == 1) ids.push_back(i + 1);
  GEOSGeom_destroy(point);
}

static size_t meeting(Index& index, Place low, Place high) {
  GEOSGeometry* box = GEOSGeom_createRectangle(low.x, low.y, high.x, high.y);
  index.found.clear(); GEOSSTRtree_query(index.tree, box, keep, &index.found);
  GEOSGeom_destroy(box);
  return index.found.size();
}

int main(int count, char** words) {
  initGEOS(message, message);
  return measure<Index>(count, words, ids_at, meeting);
}
