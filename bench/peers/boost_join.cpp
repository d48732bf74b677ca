// A join on Boost.Geometry: a packed R-tree of the right layer's boxes, and the matrix of each pair whose boxes meet,
// which the masks of the relation are fitted to.
#include "common.hpp"

#include <algorithm>
#include <boost/geometry.hpp>
#include <boost/geometry/algorithms/relation.hpp>
#include <boost/geometry/index/rtree.hpp>
#include <boost/variant.hpp>
#include <map>

namespace bg = boost::geometry;

namespace {

using Point = bg::model::d2::point_xy<double>;
using Line = bg::model::linestring<Point>;
using Polygon = bg::model::polygon<Point>;
using Box = bg::model::box<Point>;
using Shape = boost::variant<Point, Line, Polygon>;
using Item = std::pair<Box, std::size_t>;
using Tree = bg::index::rtree<Item, bg::index::quadratic<16>>;

struct Layer {
    std::vector<Row> rows;
    std::vector<Shape> shapes;
    std::vector<Box> boxes;
};

template <class Kind>
Kind read_as(const std::string& wkt) {
    Kind shape;
    bg::read_wkt(wkt, shape);
    bg::correct(shape);
    return shape;
}

Shape read_shape(const std::string& wkt) {
    if (wkt.rfind("POINT", 0) == 0) return read_as<Point>(wkt);
    if (wkt.rfind("LINESTRING", 0) == 0) return read_as<Line>(wkt);
    return read_as<Polygon>(wkt);
}

Layer read_layer(const char* path) {
    Layer layer{read_rows(path), {}, {}};
    for (const Row& row : layer.rows) {
        layer.shapes.push_back(read_shape(row.wkt));
        layer.boxes.push_back(boost::apply_visitor([](const auto& shape) { return bg::return_envelope<Box>(shape); },
                                                   layer.shapes.back()));
    }
    return layer;
}

Tree tree_of(const Layer& layer) {
    std::vector<Item> items;
    for (std::size_t at = 0; at < layer.boxes.size(); ++at) items.emplace_back(layer.boxes[at], at);
    return Tree(items.begin(), items.end());
}

struct MatrixOf : boost::static_visitor<std::string> {
    template <class A, class B>
    std::string operator()(const A& a, const B& b) const {
        return bg::relation(a, b).str();
    }
};

struct Stretch {
    const Layer& left;
    const Layer& right;
    const Tree& tree;
    const Table masks;
};

void join_one(const Stretch& join, std::size_t at, std::string& text) {
    std::vector<Item> found;
    join.tree.query(bg::index::intersects(join.left.boxes[at]), std::back_inserter(found));
    std::sort(found.begin(), found.end(), [](const Item& a, const Item& b) { return a.second < b.second; });
    const Shape& left = join.left.shapes[at];
    for (const Item& item : found) {
        const Shape& right = join.right.shapes[item.second];
        const std::string matrix = boost::apply_visitor(MatrixOf(), left, right);
        if (fits_one(join.masks[left.which()][right.which()], matrix))
            push_pair(text, join.left.rows[at], join.right.rows[item.second], matrix);
    }
}

}  // namespace

int main(int count, char** argument) {
    const Words words = words_of(count, argument);
    const Layer left = read_layer(words.left);
    const Layer right = read_layer(words.right);
    const Tree tree = tree_of(right);
    const Stretch join{left, right, tree, table_of(words.relation)};
    report("left,right,matrix", left.shapes.size(), words.workers,
           [&](std::size_t first, std::size_t last, std::string& text) {
        for (std::size_t at = first; at < last; ++at) join_one(join, at, text);
    });
    std::fflush(stdout);
    std::_Exit(0);
}
