// A join on GEOS by its C interface: an STRtree of one layer, asked by each geometry of the other, which is prepared
// unless the way is plain. The ways:
//     plain       the letters of each pair whose boxes meet, which the masks of the relation are fitted to
//     relate      the same by the prepared geometry, which GEOS relates from 3.13 on
//     prepared    the named predicate of the prepared geometry, and the letters of the pairs for which it holds
//     pairs       the named predicate of the prepared geometry, and no letters
// Left geometries are prepared; or with the word `right` behind the way right ones, where the relation has a converse.
#include "common.hpp"
#include "geos_layers.hpp"

#include <map>

namespace {

using Predicate = char (*)(GEOSContextHandle_t, const GEOSPreparedGeometry*, const GEOSGeometry*);

// A predicate, and the one that says the same of the two exchanged, if there is one.
struct Named {
    Predicate holds;
    const char* converse;
};

const std::map<std::string, Named> predicates = {
    {"intersects", {GEOSPreparedIntersects_r, "intersects"}}, {"touches", {GEOSPreparedTouches_r, "touches"}},
    {"crosses", {GEOSPreparedCrosses_r, "crosses"}},          {"within", {GEOSPreparedWithin_r, "contains"}},
    {"contains", {GEOSPreparedContains_r, "within"}},         {"overlaps", {GEOSPreparedOverlaps_r, "overlaps"}},
    {"covers", {GEOSPreparedCovers_r, "covered_by"}},         {"covered_by", {GEOSPreparedCoveredBy_r, "covers"}},
    {"contains_properly", {GEOSPreparedContainsProperly_r, nullptr}},
};

struct Context {
    const GEOSContextHandle_t handle = GEOS_init_r();
    ~Context() { GEOS_finish_r(handle); }
};

// One pair of geometries, the first of which may be prepared.
struct Pair {
    GEOSContextHandle_t context;
    const GEOSPreparedGeometry* prepared;
    const GEOSGeometry* first;
    const GEOSGeometry* second;
};

#if GEOS_VERSION_MAJOR > 3 || GEOS_VERSION_MINOR >= 13
constexpr bool relates_prepared = true;
char* relate_prepared(const Pair& pair) { return GEOSPreparedRelate_r(pair.context, pair.prepared, pair.second); }
#else
constexpr bool relates_prepared = false;
char* relate_prepared(const Pair&) { return nullptr; }
#endif

std::string matrix_of(const Pair& pair) {
    const bool by_prepared = relates_prepared && pair.prepared;
    char* letters = by_prepared ? relate_prepared(pair) : GEOSRelate_r(pair.context, pair.first, pair.second);
    if (!letters) throw std::runtime_error("not related");
    const std::string matrix = letters;
    GEOSFree_r(pair.context, letters);
    return matrix;
}

// The matrix of the two exchanged.
std::string transposed(const std::string& matrix) {
    std::string other;
    for (const int at : {0, 3, 6, 1, 4, 7, 2, 5, 8}) other += matrix[at];
    return other;
}

// What is asked of a pair, whose first geometry is the right one where right ones are prepared.
struct Question {
    bool is_swapped;
    bool is_prepared;
    bool asks_predicate;
    bool has_letters;
    Predicate holds;
    Table masks;
};

Question question_of(const Words& words) {
    const bool is_plain = words.way == "plain", is_relate = words.way == "relate", has_letters = words.way != "pairs";
    if (!is_plain && !is_relate && has_letters && words.way != "prepared")
        throw std::runtime_error("no such way: " + words.way);
    const Named& named = predicates.at(words.relation);
    const bool is_swapped = words.side == "right" && named.converse;
    const Predicate holds = is_swapped ? predicates.at(named.converse).holds : named.holds;
    return {is_swapped, !is_plain, !is_plain && !is_relate, has_letters, holds, table_of(words.relation)};
}

bool fits_relation(const Question& question, const Pair& pair, const std::string& letters) {
    int a = GEOSGeom_getDimensions_r(pair.context, pair.first), b = GEOSGeom_getDimensions_r(pair.context, pair.second);
    if (question.is_swapped) std::swap(a, b);
    return fits_one(question.masks[a][b], letters);
}

// Whether the pair stands in the relation. If it does and letters are asked for, these are written.
bool holds_of(const Question& question, const Pair& pair, std::string& letters) {
    if (question.asks_predicate && question.holds(pair.context, pair.prepared, pair.second) != 1) return false;
    if (!question.has_letters) return true;
    letters = matrix_of(pair);
    if (question.is_swapped) letters = transposed(letters);
    return question.asks_predicate || fits_relation(question, pair, letters);
}

struct Join {
    const Layer& first;
    const Layer& second;
    GEOSSTRtree* tree;
    const Question question;
};

void push_answer(std::string& text, const Join& join, std::size_t at, std::size_t other, const std::string& letters) {
    const Row& first = join.first.rows[at];
    const Row& second = join.second.rows[other];
    const bool is_swapped = join.question.is_swapped;
    push_pair(text, is_swapped ? second : first, is_swapped ? first : second, letters);
}

void join_one(GEOSContextHandle_t context, const Join& join, std::size_t at, std::string& text) {
    const GEOSGeometry* first = join.first.shapes[at];
    const auto found = found_in(context, join.tree, first);
    if (found.empty()) return;
    const GEOSPreparedGeometry* prepared = join.question.is_prepared ? GEOSPrepare_r(context, first) : nullptr;
    std::string letters;
    for (const std::size_t other : found)
        if (holds_of(join.question, {context, prepared, first, join.second.shapes[other]}, letters))
            push_answer(text, join, at, other, letters);
    if (prepared) GEOSPreparedGeom_destroy_r(context, prepared);
}

}  // namespace

int main(int count, char** argument) {
    const Words words = words_of(count, argument);
    const Question question = question_of(words);
    const Context context;
    const Layer left = read_layer(context.handle, words.left);
    const Layer right = read_layer(context.handle, words.right);
    const Layer& first = question.is_swapped ? right : left;
    const Layer& second = question.is_swapped ? left : right;
    const Join join{first, second, tree_of(context.handle, second), question};
    report(question.has_letters ? "left,right,matrix" : "left,right", first.shapes.size(), words.workers,
           [&](std::size_t begin, std::size_t end, std::string& text) {
        const Context own;
        for (std::size_t at = begin; at < end; ++at) join_one(own.handle, join, at, text);
    });
    std::fflush(stdout);
    std::_Exit(0);  // what is held is left to the system, as the other peers do
}
