// Peer for the corners at one x: a plain scan of a listing's records. `scan LISTING SECONDS [X]`, X being 512 unless
// said, as ours has it.
#include "common.hpp"

static uint16_t x_of(const uint8_t *record) { return uint16_t(record[0] | record[1] << 8); }

static Part scan(const uint8_t *listing, size_t records, uint16_t x) {
    size_t first = 0;
    while (first < records && x_of(listing + 7 * first) != x) first++;
    size_t end = first;
    while (end < records && x_of(listing + 7 * end) == x) end++;
    Part part;
    if (first < end) part.first = 7 * first, part.end = 7 * end;
    return part;
}

int main(int count, char **arguments) {
    std::vector<uint8_t> listing = read_bytes(arguments[1]);
    uint16_t x = count > 3 ? uint16_t(atoi(arguments[3])) : 512;
    return report(atof(arguments[2]), [&] { return scan(listing.data(), listing.size() / 7, x); });
}
