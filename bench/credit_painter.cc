// Peer for the credits: a painter of one bit a cell, in rows of 64-bit words along z. The cells that a shot paints anew
// are its credit. `credit_painter FILE SECONDS` paints the field shot by shot; with a third word, `planes`, it paints
// one plane across x after another, each with all its shots, so that the cells in use stay near the processor.
#include "common.hpp"

#include <algorithm>

static uint32_t bits(uint64_t word) { return uint32_t(__builtin_popcountll(word)); }

// Paints the cells from z to below end in a row and counts those that are new. A row of several words with nothing new
// is only read, which spares the memory half of its work.
static uint32_t paint_row(uint64_t *row, size_t z, size_t end) {
    size_t first = z / 64, last = (end - 1) / 64;
    uint64_t from = ~uint64_t(0) << z % 64, to = ~uint64_t(0) >> (63 - (end - 1) % 64);
    if (first == last) {
        uint64_t fresh = from & to & ~row[first];
        row[first] |= fresh;
        return bits(fresh);
    }
    uint32_t fresh = bits(from & ~row[first]) + bits(to & ~row[last]);
    for (size_t word = first + 1; word < last; word++) fresh += bits(~row[word]);
    if (fresh == 0) return 0;
    row[first] |= from;
    std::fill(row + first + 1, row + last, ~uint64_t(0));
    row[last] |= to;
    return fresh;
}

static CreditFigures by_shots(const List &list) {
    size_t field = list.field, edge = list.edge, width = (field + 63) / 64;
    std::vector<uint32_t> credits(list.shots());
    // The system's pages are zero already, and those that no shot reaches are never fetched.
    uint64_t *cells = static_cast<uint64_t *>(calloc(field * field * width, sizeof(uint64_t)));
    if (cells == nullptr) exit(2);
    for (size_t shot = 0; shot < list.shots(); shot++) {
        size_t x = list.coords[3 * shot], y = list.coords[3 * shot + 1], z = list.coords[3 * shot + 2];
        for (size_t i = x; i < x + edge; i++)
            for (size_t j = y; j < y + edge; j++)
                credits[shot] += paint_row(cells + (i * field + j) * width, z, z + edge);
    }
    free(cells);
    return credit_figures(credits);
}

static CreditFigures by_planes(const List &list) {
    size_t field = list.field, edge = list.edge, width = (field + 63) / 64;
    std::vector<uint32_t> credits(list.shots());
    std::vector<uint64_t> plane(field * width);
    for (size_t i = 0; i < field; i++) {
        std::fill(plane.begin(), plane.end(), 0);
        for (size_t shot = 0; shot < list.shots(); shot++) {
            size_t x = list.coords[3 * shot], y = list.coords[3 * shot + 1], z = list.coords[3 * shot + 2];
            if (i < x || i >= x + edge) continue;
            for (size_t j = y; j < y + edge; j++) credits[shot] += paint_row(&plane[j * width], z, z + edge);
        }
    }
    return credit_figures(credits);
}

int main(int count, char **arguments) {
    List list = read_list(arguments[1]);
    return report(atof(arguments[2]), [&] { return count > 3 ? by_planes(list) : by_shots(list); });
}
