// A compact brute-force reading of the request in C++, for small fields: the fuzz target's second opinion.
//
// Cells are bytes in a box with a margin of one uncovered cell; every lattice point looks at its eight cells; every grid
// cell asks every shot. It shares no code with the proved crates nor with the Rust oracle.
#ifndef HEQDANU_FUZZ_ORACLE_HPP
#define HEQDANU_FUZZ_ORACLE_HPP

#include <algorithm>
#include <cstddef>
#include <cstdint>
#include <cstring>
#include <initializer_list>
#include <vector>

namespace oracle {

struct List {
    uint16_t field, edge, grid;
    const uint16_t *coords;
    size_t ncoords;

    size_t shots() const { return ncoords / 3; }
    int at(size_t shot, int axis) const { return coords[3 * shot + axis]; }
};

// Number 0: nothing refuses.
struct Refusal {
    uint64_t number, detail;
};

// Refusals 1, 2, 6, 7, 8, 9, in this order.
inline Refusal check(const List &list) {
    if (list.ncoords % 3 != 0) return {1, 0};
    if (list.shots() > 4096) return {2, 0};
    if (list.field < 1 || list.field > 1024) return {6, 0};
    if (list.edge < 1 || list.edge > list.field) return {7, 0};
    if (list.grid < 1 || list.grid > 64 || list.field % list.grid != 0) return {8, 0};
    for (size_t shot = 0; shot < list.shots(); shot++)
        for (int axis = 0; axis < 3; axis++)
            if (list.at(shot, axis) + int(list.edge) > int(list.field)) return {9, shot};
    return {0, 0};
}

// The refusals of slices that are lent too short, with what is needed as their detail.
inline Refusal short_work(uint64_t entries) { return {10, entries}; }
inline Refusal short_listing(uint64_t corners) { return {11, corners}; }
inline Refusal short_file(uint64_t bytes) { return {12, bytes}; }
inline Refusal short_credits(uint64_t shots) { return {16, shots}; }

// Whether the closed interval g of an axis and the closed extent of a cube share a point.
inline bool touches(const List &list, int g, int low) {
    int width = list.field / list.grid;
    return std::max(g * width, low) <= std::min((g + 1) * width, low + int(list.edge));
}

inline uint64_t need(const List &list) {
    uint64_t grid = list.grid, pairs = 0;
    for (size_t shot = 0; shot < list.shots(); shot++) {
        uint64_t cells = 1;
        for (int axis = 0; axis < 3; axis++) {
            uint64_t touched = 0;
            for (int g = 0; g < int(grid); g++) touched += touches(list, g, list.at(shot, axis));
            cells *= touched;
        }
        pairs += cells;
    }
    return grid * grid * grid + 1 + pairs;
}

inline std::vector<uint32_t> index(const List &list) {
    int grid = list.grid;
    std::vector<uint32_t> starts, runs;
    for (int gx = 0; gx < grid; gx++) {
        std::vector<uint32_t> slab;
        for (size_t shot = 0; shot < list.shots(); shot++)
            if (touches(list, gx, list.at(shot, 0))) slab.push_back(uint32_t(shot));
        for (int gy = 0; gy < grid; gy++)
            for (int gz = 0; gz < grid; gz++) {
                starts.push_back(uint32_t(runs.size()));
                for (uint32_t shot : slab)
                    if (touches(list, gy, list.at(shot, 1)) && touches(list, gz, list.at(shot, 2))) runs.push_back(shot);
            }
    }
    starts.push_back(uint32_t(runs.size()));
    starts.insert(starts.end(), runs.begin(), runs.end());
    return starts;
}

// The first shot of a run that covers the cell, or -1; a number past the list is no shot.
inline int64_t first_covering(const List &list, const std::vector<uint32_t> &run, const uint16_t *cell) {
    auto found = std::find_if(run.begin(), run.end(), [&](uint32_t shot) {
        if (shot >= list.shots()) return false;
        for (int axis = 0; axis < 3; axis++) {
            int from = list.at(shot, axis), place = cell[axis];
            if (place < from || place >= from + int(list.edge)) return false;
        }
        return true;
    });
    return found == run.end() ? -1 : int64_t(*found);
}

// Covered cells in the box about the shots, with a margin.
struct Room {
    int low[3] = {0, 0, 0}, side[3] = {0, 0, 0};
    std::vector<uint8_t> cells;

    explicit Room(const List &list) {
        for (int axis = 0; axis < 3 && list.shots() > 0; axis++) {
            int first = list.at(0, axis), last = first;
            for (size_t shot = 0; shot < list.shots(); shot++) {
                first = std::min(first, list.at(shot, axis));
                last = std::max(last, list.at(shot, axis));
            }
            low[axis] = first;
            side[axis] = last + list.edge - first;
        }
        cells.assign(size_t(side[0] + 2) * (side[1] + 2) * (side[2] + 2), 0);
        for (size_t shot = 0; shot < list.shots(); shot++)
            for (int i = 0; i < list.edge; i++)
                for (int j = 0; j < list.edge; j++) {
                    uint8_t *row = &at(list.at(shot, 0) - low[0] + i, list.at(shot, 1) - low[1] + j,
                                       list.at(shot, 2) - low[2]);
                    std::fill(row, row + list.edge, uint8_t(1));
                }
    }

    // A cell by its place in the box; the margin is at -1 and at the side.
    uint8_t &at(int i, int j, int k) { return cells[number(i, j, k)]; }

    size_t number(int i, int j, int k) const {
        return (size_t(i + 1) * (side[1] + 2) + size_t(j + 1)) * (side[2] + 2) + size_t(k + 1);
    }
};

// For each shot of an accepted list the number of cells for which it is the lowest covering shot: the shots paint their
// numbers over each other from the last to the first, and then the cells are counted.
inline std::vector<uint32_t> credits(const List &list) {
    Room room(list);
    std::vector<uint32_t> lowest(room.cells.size()), result(list.shots());
    for (size_t shot = list.shots(); shot-- > 0;)
        for (int i = 0; i < list.edge; i++)
            for (int j = 0; j < list.edge; j++) {
                uint32_t *row = &lowest[room.number(list.at(shot, 0) - room.low[0] + i,
                                                    list.at(shot, 1) - room.low[1] + j, list.at(shot, 2) - room.low[2])];
                std::fill(row, row + list.edge, uint32_t(shot));
            }
    for (size_t cell = 0; cell < lowest.size(); cell++)
        if (room.cells[cell]) result[lowest[cell]]++;
    return result;
}

// The four cells about a unit edge, 1 where covered, and what it counts as edge and as inner length. a and d share only
// the edge, and so do b and c.
struct Four {
    int a, b, c, d;

    int outer() const { return a + b + c + d == 1 ? 1 : a == d && b == c && a != b ? 2 : 0; }
    int inner() const { return a + b + c + d == 3; }
};

struct Weights {
    int w = 0, a[3] = {0, 0, 0}, e[3] = {0, 0, 0}, i[3] = {0, 0, 0};

    explicit Weights(uint8_t pattern) {
        int shift[3] = {2, 1, 0};
        auto bit = [&](int x, int y, int z) { return pattern >> (4 * x + 2 * y + z) & 1; };
        for (int x = 0; x < 2; x++)
            for (int y = 0; y < 2; y++)
                for (int z = 0; z < 2; z++) w += bit(x, y, z) * ((x + y + z) % 2 == 0 ? 1 : -1);
        for (int axis = 0; axis < 3; axis++) {
            int along = shift[axis], p = shift[(axis + 1) % 3], q = shift[(axis + 2) % 3];
            auto cell = [&](int up, int b, int c) { return pattern >> ((up << along) + (b << p) + (c << q)) & 1; };
            for (int b = 0; b < 2; b++)
                for (int c = 0; c < 2; c++)
                    if (cell(0, b, c) != cell(1, b, c)) a[axis] += b == c ? 1 : -1;
            Four ending = {cell(0, 0, 0), cell(0, 0, 1), cell(0, 1, 0), cell(0, 1, 1)};
            Four beginning = {cell(1, 0, 0), cell(1, 0, 1), cell(1, 1, 0), cell(1, 1, 1)};
            e[axis] = ending.outer() - beginning.outer();
            i[axis] = ending.inner() - beginning.inner();
        }
    }

    bool corner() const {
        bool any = w != 0;
        for (int axis = 0; axis < 3; axis++) any = any || a[axis] != 0 || e[axis] != 0 || i[axis] != 0;
        return any;
    }
};

struct Measured {
    uint64_t volume = 0, area = 0, edge = 0, inner = 0, corners = 0;
    std::vector<uint8_t> listing;
};

// The corner table: whether a pattern carries a weight.
inline const std::vector<uint8_t> &corner_table() {
    static const std::vector<uint8_t> table = [] {
        std::vector<uint8_t> made;
        for (int pattern = 0; pattern < 256; pattern++) made.push_back(Weights(uint8_t(pattern)).corner());
        return made;
    }();
    return table;
}

// Adds what belongs to a lattice point: the cell above it on all axes, the squares and unit edges that start there, and
// the point itself if it is a corner.
inline void count_point(const int *point, uint8_t pattern, Measured &result) {
    auto cell = [&](int bit) { return pattern >> bit & 1; };
    result.volume += uint64_t(cell(7));
    result.area += uint64_t((cell(7) != cell(3)) + (cell(7) != cell(5)) + (cell(7) != cell(6)));
    const Four edges[3] = {{cell(4), cell(5), cell(6), cell(7)},
                           {cell(2), cell(3), cell(6), cell(7)},
                           {cell(1), cell(3), cell(5), cell(7)}};
    for (const Four &four : edges) {
        result.edge += uint64_t(four.outer());
        result.inner += uint64_t(four.inner());
    }
    if (!corner_table()[pattern]) return;
    result.corners++;
    for (int axis = 0; axis < 3; axis++) {
        result.listing.push_back(uint8_t(point[axis] & 255));
        result.listing.push_back(uint8_t(point[axis] >> 8));
    }
    result.listing.push_back(pattern);
}

// Counts an accepted list. Along z the four cells above a point are the four below the next one.
inline Measured measured(const List &list) {
    Measured result;
    Room room(list);
    for (int x = 0; x <= room.side[0]; x++)
        for (int y = 0; y <= room.side[1]; y++) {
            const uint8_t *rows[4];
            for (int row = 0; row < 4; row++) rows[row] = &room.at(x - 1 + (row >> 1), y - 1 + (row & 1), -1);
            unsigned pattern = 0;
            for (int z = 0; z <= room.side[2]; z++) {
                pattern = pattern >> 1 & 0x55;
                for (int row = 0; row < 4; row++) pattern |= unsigned(rows[row][z + 1]) << (2 * row + 1);
                int point[3] = {x + room.low[0], y + room.low[1], z + room.low[2]};
                if (pattern != 0) count_point(point, uint8_t(pattern), result);
            }
        }
    return result;
}

// The totals of a listing's bytes.
inline Measured sums(const uint8_t *listing, size_t corners) {
    int64_t volume = 0, area = 0, edge = 0, inner = 0;
    for (size_t record = 0; record < corners; record++) {
        const uint8_t *bytes = listing + 7 * record;
        int64_t x = bytes[0] | bytes[1] << 8, y = bytes[2] | bytes[3] << 8, z = bytes[4] | bytes[5] << 8;
        Weights weights(bytes[6]);
        volume += x * y * z * weights.w;
        area += y * z * weights.a[0] + x * z * weights.a[1] + x * y * weights.a[2];
        edge += x * weights.e[0] + y * weights.e[1] + z * weights.e[2];
        inner += x * weights.i[0] + y * weights.i[1] + z * weights.i[2];
    }
    Measured result;
    result.volume = uint64_t(volume);
    result.area = uint64_t(area);
    result.edge = uint64_t(edge);
    result.inner = uint64_t(inner);
    result.corners = corners;
    return result;
}

// A band of amounts, both ends included, with its cents for each unit, and a table of bands.
struct Band {
    uint64_t first, last, cents;
};
typedef std::vector<Band> Table;

// The amount at which a table ends, the most cents for each unit, and the most bands.
const uint64_t TOP = uint64_t(1) << 40, MOST_CENTS = 10000;
const size_t MOST_BANDS = 64;

// Whether a band of a table starts elsewhere than at 0 or behind the one before it.
inline bool starts_wrong(const Table &table, size_t number) {
    uint64_t first = table[number].first;
    if (number == 0) return first != 0;
    return first == 0 || first - 1 != table[number - 1].last;
}

// Whether a band ends before its start or past the top.
inline bool ends_wrong(const Table &table, size_t number) {
    return table[number].last < table[number].first || table[number].last > TOP;
}

inline bool costs_too_much(const Table &table, size_t number) { return table[number].cents > MOST_CENTS; }

// The number of the first band of which a rule holds, or of all bands where it holds of none.
template <class Rule> size_t first_band(const Table &table, Rule rule) {
    size_t number = 0;
    while (number < table.size() && !rule(table, number)) number++;
    return number;
}

inline Refusal invalid_table(uint64_t detail) { return {18, detail}; }

// Refusal 18 of one table: the rules are looked for one after another, and the first band that breaks any counts.
inline Refusal check_table(const Table &table) {
    if (table.size() > MOST_BANDS) return invalid_table(MOST_BANDS);
    size_t faulty = std::min({first_band(table, starts_wrong), first_band(table, ends_wrong),
                              first_band(table, costs_too_much)});
    bool whole = !table.empty() && faulty == table.size() && table.back().last == TOP;
    return whole ? Refusal{0, 0} : invalid_table(faulty);
}

// The number of the band of a valid table that holds an amount: the last one that does not start behind it.
inline size_t holding(const Table &table, uint64_t amount) {
    auto behind = std::upper_bound(table.begin(), table.end(), amount,
                                   [](uint64_t place, const Band &band) { return place < band.first; });
    return size_t(behind - table.begin()) - 1;
}

// What an amount costs by a valid table.
inline uint64_t charge(const Table &table, uint64_t amount) { return amount * table[holding(table, amount)].cents; }

// A part of a listing's bytes: the place of its first byte and the place after its last.
struct Part {
    size_t first, end;
};

// The x of each whole record of a listing, which any bytes are.
inline std::vector<uint16_t> record_xs(const uint8_t *listing, size_t nlisting) {
    std::vector<uint16_t> xs(nlisting / 7);
    for (size_t record = 0; record < xs.size(); record++)
        xs[record] = uint16_t(listing[7 * record] | listing[7 * record + 1] << 8);
    return xs;
}

// The first unbroken run of records with that x, from a record on; 0 to 0 where there is none.
inline Part run_from(const std::vector<uint16_t> &xs, size_t from, uint16_t x) {
    auto first = std::find(xs.begin() + long(from), xs.end(), x);
    if (first == xs.end()) return {0, 0};
    auto end = std::find_if(first, xs.end(), [&](uint16_t other) { return other != x; });
    return {7 * size_t(first - xs.begin()), 7 * size_t(end - xs.begin())};
}

// The part of a listing that holds the corners at one x.
inline Part corners_at(const uint8_t *listing, size_t nlisting, uint16_t x) {
    return run_from(record_xs(listing, nlisting), 0, x);
}

// What an absent field of a shot file's header means: field side, shot edge, grid size.
const uint16_t ABSENT[3] = {1024, 16, 16};

// What a file holds, or why it is refused. The header begins as what its absent fields mean.
struct File {
    Refusal refusal = {0, 0};
    uint16_t header[3] = {ABSENT[0], ABSENT[1], ABSENT[2]};
    std::vector<uint16_t> coords;
};

// A whole record of a shot file: its number, 0 being the header's, its map, what the absence of each field would mean,
// and what the record says.
struct Record {
    size_t number;
    uint8_t map;
    uint16_t absent[3], said[3];

    bool has(int bit) const { return map >> bit & 1; }
};

// Whether a record has a field that says what its absence would mean.
inline bool needless(const Record &record) {
    for (int bit = 0; bit < 3; bit++)
        if (record.has(bit) && record.said[bit] == record.absent[bit]) return true;
    return false;
}

// Reads a shot file; the rule says which of its whole records are refused by 17.
template <class Rule> File read_by(const uint8_t *bytes, size_t nbytes, size_t places, Rule rule) {
    File file;
    uint16_t previous[3] = {0, 0, 0};
    size_t offset = 0, shots = 0;
    for (bool header = true; header || offset < nbytes; header = false) {
        size_t map_at = offset;
        auto refuse = [&](uint64_t number) {
            File refused;
            refused.refusal = {number, map_at};
            return refused;
        };
        if (!header && shots == 4096) return refuse(2);
        if (!header && places < 3 * (shots + 1)) return refuse(3);
        if (offset >= nbytes) return refuse(5);
        uint8_t map = bytes[offset++];
        if (map > 7) return refuse(4);
        uint16_t *values = header ? file.header : previous;
        Record record = {header ? 0 : shots + 1, map, {}, {}};
        std::copy(values, values + 3, record.absent);
        for (int bit = 0; bit < 3; bit++) {
            if (!record.has(bit)) continue;
            if (nbytes - offset < 2) return refuse(5);
            values[bit] = uint16_t(bytes[offset] | bytes[offset + 1] << 8);
            offset += 2;
        }
        std::copy(values, values + 3, record.said);
        if (rule(record)) return refuse(17);
        if (header) continue;
        file.coords.insert(file.coords.end(), previous, previous + 3);
        shots++;
    }
    return file;
}

inline File read(const uint8_t *bytes, size_t nbytes, size_t places) {
    return read_by(bytes, nbytes, places, needless);
}

// A number of a VOX file: 32 bits, least byte first.
inline uint64_t vox_number(const uint8_t *bytes, uint64_t at) {
    return bytes[at] | uint64_t(bytes[at + 1]) << 8 | uint64_t(bytes[at + 2]) << 16 | uint64_t(bytes[at + 3]) << 24;
}

// What is wrong with the head of the chunk that a VOX file must have at a place, which is not past its end; 0: nothing.
inline uint64_t head_fault(const uint8_t *bytes, uint64_t nbytes, uint64_t at, const char *name) {
    uint64_t left = nbytes - at;
    bool named = left < 4 || memcmp(bytes + at, name, 4) == 0;
    return left == 0 || !named ? 13 : left < 12 ? 14 : 0;
}

// A VOX file has SIZE at 20 and XYZI at 44, or is refused before that matters.
inline File read_vox(const uint8_t *bytes, size_t nbytes, size_t places) {
    auto refuse = [](uint64_t number, uint64_t at) {
        File refused;
        refused.refusal = {number, at};
        return refused;
    };
    auto number = [&](uint64_t at) { return vox_number(bytes, at); };
    auto fault = [&](uint64_t at, const char *name) { return head_fault(bytes, nbytes, at, name); };
    if (nbytes < 8 || memcmp(bytes, "VOX ", 4) != 0 || number(4) != 150) return refuse(13, 0);
    if (uint64_t found = fault(8, "MAIN")) return refuse(found, 8);
    if (number(12) != 0 || 20 + number(16) != nbytes) return refuse(14, 8);
    if (uint64_t found = fault(20, "SIZE")) return refuse(found, 20);
    if (number(24) != 12 || number(28) != 0 || nbytes < 44) return refuse(14, 20);
    uint64_t sides[3] = {number(32), number(36), number(40)};
    for (uint64_t side : sides)
        if (side < 1 || side > 256) return refuse(15, 20);
    if (uint64_t found = fault(44, "XYZI")) return refuse(found, 44);
    if (number(52) != 0 || nbytes < 60) return refuse(14, 44);
    uint64_t count = number(56), end = 60 + 4 * count;
    if (number(48) < 4 || number(48) != 4 + 4 * count || end > nbytes) return refuse(14, 44);
    if (count > 4096) return refuse(2, 44);
    if (places < 3 * count) return refuse(3, 44);
    File file;
    for (uint64_t at = 60; at < end; at += 4) {
        for (int axis = 0; axis < 3; axis++) {
            if (bytes[at + uint64_t(axis)] >= sides[axis]) return refuse(15, at);
            file.coords.push_back(bytes[at + uint64_t(axis)]);
        }
        if (bytes[at + 3] == 0) return refuse(15, at);
    }
    while (end < nbytes) {
        if (nbytes - end < 12) return refuse(14, end);
        uint64_t next = end + 12 + number(end + 4) + number(end + 8);
        if (next > nbytes) return refuse(14, end);
        end = next;
    }
    file.header[0] = uint16_t(std::max({sides[0], sides[1], sides[2]}));
    file.header[1] = file.header[2] = 1;
    return file;
}

// The shortest file of a list.
inline std::vector<uint8_t> write(const List &list) {
    std::vector<uint8_t> bytes;
    auto put = [&](const uint16_t *values, const uint16_t *absent) {
        size_t map = bytes.size();
        bytes.push_back(0);
        for (int bit = 0; bit < 3; bit++) {
            if (values[bit] == absent[bit]) continue;
            bytes[map] = uint8_t(bytes[map] | 1 << bit);
            bytes.push_back(uint8_t(values[bit] & 255));
            bytes.push_back(uint8_t(values[bit] >> 8));
        }
    };
    const uint16_t header[3] = {list.field, list.edge, list.grid}, zero[3] = {0, 0, 0};
    put(header, ABSENT);
    for (size_t shot = 0; shot < list.shots(); shot++)
        put(list.coords + 3 * shot, shot == 0 ? zero : list.coords + 3 * (shot - 1));
    return bytes;
}

}  // namespace oracle

#endif
