// Peer: a 3-D difference array. Each cube adds +1 and -1 at its eight ends; running sums along the three axes give the
// number of cubes over each cell. Numbers have 16 bits; they may wrap on the way, but 4,096 cubes fit in the end.
#include "common.hpp"

#include <algorithm>

static Totals sum_up(const List &list) {
    size_t field = list.field, side = field + 1, width = field + 2, edge = list.edge;
    std::vector<uint16_t> cubes(side * side * side);
    for (size_t shot = 0; shot < list.shots(); shot++)
        for (int end = 0; end < 8; end++) {
            size_t x = list.coords[3 * shot] + (end & 4 ? edge : 0);
            size_t y = list.coords[3 * shot + 1] + (end & 2 ? edge : 0);
            size_t z = list.coords[3 * shot + 2] + (end & 1 ? edge : 0);
            cubes[(x * side + y) * side + z] += __builtin_popcount(unsigned(end)) % 2 ? uint16_t(-1) : uint16_t(1);
        }
    Totals totals;
    std::vector<uint8_t> below(width * width), above(width * width);
    for (size_t x = 0; x <= field; x++) {
        uint16_t *plane = &cubes[x * side * side];
        for (size_t y = 0; y < side; y++) {
            uint16_t *row = plane + y * side;
            for (size_t z = 1; z < side; z++) row[z] = uint16_t(row[z] + row[z - 1]);
            if (y > 0)
                for (size_t z = 0; z < side; z++) row[z] = uint16_t(row[z] + row[z - side]);
        }
        if (x > 0)
            for (size_t at = 0; at < side * side; at++) plane[at] = uint16_t(plane[at] + plane[at - side * side]);
        for (size_t y = 0; y < field; y++)
            for (size_t z = 0; z < field; z++) above[(y + 1) * width + z + 1] = plane[y * side + z] != 0;
        count_plane(below.data(), above.data(), list.field, totals);
        std::swap(below, above);
    }
    return totals;
}

int main(int, char **arguments) {
    List list = read_list(arguments[1]);
    return report(atof(arguments[2]), [&] { return sum_up(list); });
}
