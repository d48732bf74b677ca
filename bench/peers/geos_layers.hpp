// Layers of the peers on GEOS: geometries read from CSV, and an STRtree of them.
#pragma once

#include "common.hpp"

#include <algorithm>
#include <geos_c.h>

struct Layer {
    std::vector<Row> rows;
    std::vector<GEOSGeometry*> shapes;
};

inline Layer read_layer(GEOSContextHandle_t context, const char* path) {
    Layer layer{read_rows(path), {}};
    GEOSWKTReader* reader = GEOSWKTReader_create_r(context);
    for (const Row& row : layer.rows) {
        layer.shapes.push_back(GEOSWKTReader_read_r(context, reader, row.wkt.c_str()));
        if (!layer.shapes.back()) throw std::runtime_error("not read: " + row.wkt);
    }
    GEOSWKTReader_destroy_r(context, reader);
    return layer;
}

inline void note(void* item, void* found) {
    static_cast<std::vector<std::size_t>*>(found)->push_back(reinterpret_cast<std::size_t>(item));
}

// The tree is built at its first query, which has to come before the threads.
inline GEOSSTRtree* tree_of(GEOSContextHandle_t context, const Layer& layer) {
    GEOSSTRtree* tree = GEOSSTRtree_create_r(context, 10);
    for (std::size_t at = 0; at < layer.shapes.size(); ++at)
        GEOSSTRtree_insert_r(context, tree, layer.shapes[at], reinterpret_cast<void*>(at));
    std::vector<std::size_t> found;
    if (!layer.shapes.empty()) GEOSSTRtree_query_r(context, tree, layer.shapes[0], note, &found);
    return tree;
}

// The features of a tree whose boxes meet that of a geometry, in order.
inline std::vector<std::size_t> found_in(GEOSContextHandle_t context, GEOSSTRtree* tree, const GEOSGeometry* shape) {
    std::vector<std::size_t> found;
    GEOSSTRtree_query_r(context, tree, shape, note, &found);
    std::sort(found.begin(), found.end());
    return found;
}
