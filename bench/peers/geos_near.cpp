// A join within a distance on GEOS by its C interface: an STRtree of the right layer, asked by the envelope of each
// left geometry grown by the distance, and the distance by the prepared left geometry. Distances are rounded to whole
// numbers; the distance of rectangles with whole coordinates is the root of a whole number, and so never halfway. Other
// geometries may be halfway apart, but hardly ever are.
#include "common.hpp"
#include "geos_layers.hpp"

#include <cmath>

namespace {

struct NearWords {
    const char* left;
    const char* right;
    double distance;
    unsigned workers;
};

NearWords words_of_near(int count, char** words) {
    if (count != 5) throw std::runtime_error("LEFT RIGHT DISTANCE WORKERS");
    return {words[1], words[2], std::atof(words[3]), unsigned(std::atoi(words[4]))};
}

struct Search {
    const Layer& left;
    const Layer& right;
    GEOSSTRtree* tree;
    double distance;
};

GEOSGeometry* grown_envelope(GEOSContextHandle_t context, const GEOSGeometry* shape, double distance) {
    double x1, y1, x2, y2;
    GEOSGeom_getXMin_r(context, shape, &x1);
    GEOSGeom_getYMin_r(context, shape, &y1);
    GEOSGeom_getXMax_r(context, shape, &x2);
    GEOSGeom_getYMax_r(context, shape, &y2);
    return GEOSGeom_createRectangle_r(context, x1 - distance, y1 - distance, x2 + distance, y2 + distance);
}

void push_near(std::string& text, const Row& left, const Row& right, double distance) {
    push_pair(text, left, right, std::to_string(std::llround(distance)));
}

void join_near(GEOSContextHandle_t context, const Search& join, std::size_t at, std::string& text) {
    const GEOSGeometry* left = join.left.shapes[at];
    GEOSGeometry* window = grown_envelope(context, left, join.distance);
    const GEOSPreparedGeometry* prepared = GEOSPrepare_r(context, left);
    for (const std::size_t other : found_in(context, join.tree, window)) {
        double distance;
        if (GEOSPreparedDistance_r(context, prepared, join.right.shapes[other], &distance) != 1)
            throw std::runtime_error("no distance");
        if (distance <= join.distance) push_near(text, join.left.rows[at], join.right.rows[other], distance);
    }
    GEOSPreparedGeom_destroy_r(context, prepared);
    GEOSGeom_destroy_r(context, window);
}

}  // namespace

int main(int count, char** argument) {
    const NearWords words = words_of_near(count, argument);
    GEOSContextHandle_t context = GEOS_init_r();
    const Layer left = read_layer(context, words.left);
    const Layer right = read_layer(context, words.right);
    const Search join{left, right, tree_of(context, right), words.distance};
    report("left,right,distance", left.shapes.size(), words.workers,
           [&](std::size_t first, std::size_t last, std::string& text) {
               GEOSContextHandle_t own = GEOS_init_r();
               for (std::size_t at = first; at < last; ++at) join_near(own, join, at, text);
               GEOS_finish_r(own);
           });
    std::fflush(stdout);
    std::_Exit(0);  // the system frees what is held, as for the other peers
}
