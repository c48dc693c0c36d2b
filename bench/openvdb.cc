// Peer: OpenVDB. Each cube is filled into a sparse tree of on and off cells, large parts of it as tiles; slabs of the
// tree are copied to byte planes and counted.
#include "common.hpp"

#include <openvdb/openvdb.h>
#include <openvdb/tools/Dense.h>

static Totals fill(const List &list) {
    openvdb::BoolTree tree(false);
    int edge = list.edge, field = list.field;
    for (size_t shot = 0; shot < list.shots(); shot++) {
        openvdb::Coord low(list.coords[3 * shot], list.coords[3 * shot + 1], list.coords[3 * shot + 2]);
        tree.fill(openvdb::CoordBBox::createCube(low, edge), true, true);
    }
    const int SLAB = 32;
    size_t width = size_t(field) + 2, plane = width * width;
    Totals totals;
    for (int x = 0; x <= field; x += SLAB) {
        // Planes x - 1 to x + SLAB - 1, cells -1 to field across.
        openvdb::CoordBBox box(openvdb::Coord(x - 1, -1, -1), openvdb::Coord(x + SLAB - 1, field, field));
        openvdb::tools::Dense<uint8_t, openvdb::tools::LayoutZYX> dense(box, uint8_t(0));
        openvdb::tools::copyToDense(tree, dense);
        for (int at = 0; at < SLAB && x + at <= field; at++)
            count_plane(dense.data() + size_t(at) * plane, dense.data() + size_t(at + 1) * plane, field, totals);
    }
    return totals;
}

int main(int, char **arguments) {
    openvdb::initialize();
    List list = read_list(arguments[1]);
    return report(atof(arguments[2]), [&] { return fill(list); });
}
