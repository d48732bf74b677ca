// What the peers share: layers read from CSV, masks, workers over stretches of the left layer, the report written.
#pragma once

#include <algorithm>
#include <array>
#include <cstdio>
#include <cstdlib>
#include <fstream>
#include <iostream>
#include <stdexcept>
#include <string>
#include <thread>
#include <vector>

struct Row {
    std::string id;
    std::string wkt;
};

// The ids of the generated layers hold no comma and no quote.
inline Row row_of(const std::string& line) {
    const auto comma = line.find(',');
    if (comma == std::string::npos) throw std::runtime_error("a row without a comma");
    std::string wkt = line.substr(comma + 1);
    if (!wkt.empty() && wkt.front() == '"') wkt = wkt.substr(1, wkt.size() - 2);
    return {line.substr(0, comma), wkt};
}

inline std::vector<Row> read_rows(const char* path) {
    std::ifstream file(path);
    if (!file) throw std::runtime_error(std::string("cannot open ") + path);
    std::string line;
    std::getline(file, line);
    std::vector<Row> rows;
    while (std::getline(file, line)) rows.push_back(row_of(line));
    return rows;
}

struct Words {
    const char* left;
    const char* right;
    std::string relation;
    unsigned workers;
    std::string way;
    std::string side;
};

inline Words words_of(int count, char** words) {
    if (count < 5 || count > 7) throw std::runtime_error("LEFT RIGHT RELATION WORKERS [WAY [right]]");
    return {words[1], words[2], words[3], unsigned(std::atoi(words[4])), count > 5 ? words[5] : "",
            count > 6 ? words[6] : ""};
}

using Masks = std::vector<std::string>;

// The masks of OGC 06-103r4, and of JTS beyond it; the dimensions are those of the two shapes, 0 to 2.
inline Masks masks_of(const std::string& relation, int a, int b) {
    if (relation == "intersects") return {"T********", "*T*******", "***T*****", "****T****"};
    if (relation == "touches") return a + b == 0 ? Masks{} : Masks{"FT*******", "F**T*****", "F***T****"};
    if (relation == "within") return {"T*F**F***"};
    if (relation == "contains") return {"T*****FF*"};
    if (relation == "crosses" && a != b) return {a < b ? "T*T******" : "T*****T**"};
    if (relation == "crosses") return a == 1 ? Masks{"0********"} : Masks{};
    if (relation == "overlaps" && a == b) return {a == 1 ? "1*T***T**" : "T*T***T**"};
    if (relation == "overlaps") return {};
    if (relation == "covers") return {"T*****FF*", "*T****FF*", "***T**FF*", "****T*FF*"};
    if (relation == "covered_by") return {"T*F**F***", "*TF**F***", "**FT*F***", "**F*TF***"};
    if (relation == "contains_properly") return {"T**FF*FF*"};
    throw std::runtime_error("no such relation: " + relation);
}

inline bool fits(const std::string& mask, const std::string& matrix) {
    for (std::size_t at = 0; at < 9; ++at) {
        const bool fit = mask[at] == '*' || (mask[at] == 'T' ? matrix[at] != 'F' : mask[at] == matrix[at]);
        if (!fit) return false;
    }
    return true;
}

inline bool fits_one(const Masks& masks, const std::string& matrix) {
    return std::any_of(masks.begin(), masks.end(), [&](const std::string& mask) { return fits(mask, matrix); });
}

using Table = std::array<std::array<Masks, 3>, 3>;

inline Table table_of(const std::string& relation) {
    Table table;
    for (int a = 0; a < 3; ++a)
        for (int b = 0; b < 3; ++b) table[a][b] = masks_of(relation, a, b);
    return table;
}

// Runs `join(first, last, text)` on one stretch of the left layer for each worker, and writes the texts in order.
template <class Join>
void report(const char* header, std::size_t size, unsigned workers, Join join) {
    std::vector<std::string> texts(workers);
    std::vector<std::thread> threads;
    for (unsigned worker = 0; worker < workers; ++worker) {
        threads.emplace_back([&, worker] {
            join(size * worker / workers, size * (worker + 1) / workers, texts[worker]);
        });
    }
    for (auto& thread : threads) thread.join();
    std::puts(header);
    for (const auto& text : texts) std::fwrite(text.data(), 1, text.size(), stdout);
}

// The answer is letters or a distance, or empty where the report has pairs alone.
inline void push_pair(std::string& text, const Row& left, const Row& right, const std::string& answer) {
    text.append(left.id).append(1, ',').append(right.id);
    if (!answer.empty()) text.append(1, ',').append(answer);
    text.append(1, '\n');
}
