// boost_locate.cpp - in which parcel Boost.Geometry says that random points are: an R* tree of boxes, and `within` for
// those that hold the point. A point on an edge is in none. And how many boxes meet one. See locate.h.
#include <boost/geometry.hpp>
#include <boost/geometry/index/rtree.hpp>
#include "locate.h"
namespace geometry = boost::geometry;
typedef geometry::model::d2::point_xy<double> Point;
typedef geometry::model::polygon<Point> Polygon;
typedef std::pair<geometry::model::box<Point>, size_t> Boxed;

struct Index {
  std::vector<Polygon> polygons;
  geometry::index::rtree<Boxed, geometry::index::rstar<16>> tree;
  explicit Index(const std::vector<std::vector<Place>>& rings) {
    std::vector<Boxed> boxes;
    for (auto& ring : rings) {
      Polygon polygon;
      for (auto& place : ring) geometry::append(polygon.outer(), Point(place.x, place.y));
      boxes.push_back({geometry::return_envelope<geometry::model::box<Point>>(polygon), polygons.size()});
      polygons.push_back(polygon);
    }
    tree = decltype(tree)(boxes);
  }
};

static void ids_at(const Index& index, Place place, std::vector<size_t>& ids) {
  Point point(place.x, place.y);
  for (auto it = index.tree.qbegin(geometry::index::intersects(point)); it != index.tree.qend(); ++it)
    if (geometry::within(point, index.polygons[it->second])) ids.push_back(it->second + 1);
}

static size_t meeting(const Index& index, Place low, Place high) {
  geometry::model::box<Point> box(Point(low.x, low.y), Point(high.x, high.y));
  std::vector<size_t> ids;
  for (auto it = index.tree.qbegin(geometry::index::intersects(box)); it != index.tree.qend(); ++it)
    ids.push_back(it->second + 1);
  return ids.size();
}

int main(int count, char** words) { return measure<Index>(count, words, ids_at, meeting); }
