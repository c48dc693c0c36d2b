// Peer: a plain byte painter. One byte a cell, painted cube by cube, then counted.
#include "common.hpp"

#include <cstring>

static Totals paint(const List &list) {
    size_t width = size_t(list.field) + 2, edge = list.edge;
    std::vector<uint8_t> cells(width * width * width);
    for (size_t shot = 0; shot < list.shots(); shot++) {
        size_t x = list.coords[3 * shot] + 1u, y = list.coords[3 * shot + 1] + 1u, z = list.coords[3 * shot + 2] + 1u;
        for (size_t i = x; i < x + edge; i++)
            for (size_t j = y; j < y + edge; j++) memset(&cells[(i * width + j) * width + z], 1, edge);
    }
    Totals totals;
    for (size_t x = 0; x <= list.field; x++)
        count_plane(&cells[x * width * width], &cells[(x + 1) * width * width], list.field, totals);
    return totals;
}

int main(int, char **arguments) {
    List list = read_list(arguments[1]);
    return report(atof(arguments[2]), [&] { return paint(list); });
}
