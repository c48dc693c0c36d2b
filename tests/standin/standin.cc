// A stand-in for libcapi.a, made of the fuzz target's oracle: it lets the wrapper, the differential tests, the fuzz
// target and the benchmarks be tried without the proved library, and it tries the tests themselves. Compiled with
// -DFAULT=n it has fault n, and the differential tests must find it.

// A name of its own, so that a program with the oracle inside it can link the stand-in.
#define oracle heqdanu_standin
#include "../../fuzz/oracle.hpp"
#include "../../include/heqdanu.h"

#ifndef FAULT
#define FAULT 0
#endif

namespace {

uint8_t answered(uint64_t *answer, std::initializer_list<uint64_t> numbers) {
    std::copy(numbers.begin(), numbers.end(), answer);
    return 1;
}

// A refusal's answer has as many places as the call's own.
uint8_t refused(uint64_t *answer, size_t places, oracle::Refusal refusal) {
    answered(answer, {refusal.number, refusal.detail});
    std::fill(answer + 2, answer + places, 0);
    return 1;
}

// Refusals of the calls that take a work slice.
oracle::Refusal check(const oracle::List &list, size_t nwork) {
    oracle::Refusal refusal = oracle::check(list);
    if (FAULT == 1 && refusal.number == 9 && refusal.detail > 0) refusal.detail--;
    if (refusal.number != 0) return refusal;
    uint64_t need = oracle::need(list);
    if (FAULT == 2) return nwork <= need ? oracle::short_work(need) : refusal;
    return nwork < need ? oracle::short_work(need) : refusal;
}

void put_index(const oracle::List &list, uint32_t *work, size_t nwork) {
    std::vector<uint32_t> index = oracle::index(list);
    std::copy(index.begin(), index.end(), work);
    if (FAULT == 3 && index.size() < nwork) work[index.size()] = 0;
    if (FAULT == 4 && list.shots() > 5) std::swap(work[index.size() - 1], work[index.size() - 2]);
}

// What a rule counts over the unit edges along the axes of a list, the first so many of z, y and x.
template <class Rule> uint64_t over_edges(const oracle::List &list, int axes, Rule rule) {
    oracle::Room room(list);
    uint64_t sum = 0;
    for (int x = 0; x <= room.side[0]; x++)
        for (int y = 0; y <= room.side[1]; y++)
            for (int z = 0; z <= room.side[2]; z++) {
                auto cell = [&](int i, int j, int k) { return int(room.at(x - i, y - j, z - k)); };
                const oracle::Four along[3] = {{cell(1, 1, 0), cell(1, 0, 0), cell(0, 1, 0), cell(0, 0, 0)},
                                               {cell(1, 0, 1), cell(1, 0, 0), cell(0, 0, 1), cell(0, 0, 0)},
                                               {cell(0, 1, 1), cell(0, 1, 0), cell(0, 0, 1), cell(0, 0, 0)}};
                for (int axis = 0; axis < axes; axis++) sum += uint64_t(rule(along[axis]));
            }
    return sum;
}

// The inner length as a corner sum, with one wrong entry in the table of the weights along x (49) or along z (50).
uint64_t wrongly_summed(const std::vector<uint8_t> &listing) {
    int64_t inner = 0;
    for (size_t at = 0; at < listing.size(); at += HEQDANU_RECORD) {
        oracle::Weights weights(listing[at + 6]);
        if (FAULT == 49 && listing[at + 6] == 0x7f) weights.i[0] = 1;
        if (FAULT == 50 && listing[at + 6] == 0xd9) weights.i[2] = 0;
        for (size_t axis = 0; axis < 3; axis++)
            inner += (listing[at + 2 * axis] | listing[at + 2 * axis + 1] << 8) * weights.i[axis];
    }
    return uint64_t(inner);
}

// Wrong edge and inner lengths of an accepted list.
void mistake_lengths(const oracle::List &list, oracle::Measured &result) {
    // Three covered cells count as edge length too (43), or as nothing but edge length (44), or as 2 inside (45).
    if (FAULT == 43 || FAULT == 44) result.edge += result.inner;
    if (FAULT == 44) result.inner = 0;
    if (FAULT == 45) result.inner *= 2;
    // Two that share only the edge are charged once (46), or once outside and once inside (47).
    auto outer = [](const oracle::Four &four) { return std::min(four.outer(), 1); };
    auto inner = [](const oracle::Four &four) { return four.inner() + (four.outer() == 2); };
    if (FAULT == 46 || FAULT == 47) result.edge = over_edges(list, 3, outer);
    if (FAULT == 47) result.inner = over_edges(list, 3, inner);
    // Inner edges along x are left out.
    if (FAULT == 48) result.inner = over_edges(list, 2, [](const oracle::Four &four) { return four.inner(); });
    if (FAULT == 49 || FAULT == 50) result.inner = wrongly_summed(result.listing);
}

oracle::Measured counted(const oracle::List &list) {
    oracle::Measured result = oracle::measured(list);
    if (FAULT == 5 && result.edge > 60) result.edge--;
    if (FAULT == 6 && list.field > 100) result.area++;
    mistake_lengths(list, result);
    return result;
}

// Whether an answer slice has the places that measuring needs; with fault 53 six are taken for enough.
bool measurable(size_t nanswer) { return nanswer >= HEQDANU_MEASURE_ANSWER - (FAULT == 53); }

// The answer of an accepted list, as far as the slice goes.
uint8_t told(uint64_t *answer, size_t nanswer, const oracle::Measured &result) {
    std::vector<uint64_t> places = {0, 0, result.volume, result.area, result.edge, result.inner, result.corners};
    // Edge and inner length are exchanged (51), or inner length and corners (52).
    if (FAULT == 51) std::swap(places[4], places[5]);
    if (FAULT == 52) std::swap(places[5], places[6]);
    // The place behind the answer is cleared.
    if (FAULT == 54) places.push_back(0);
    std::copy_n(places.begin(), std::min(nanswer, places.size()), answer);
    return 1;
}

// The answer of a refused list, as far as the slice goes.
uint8_t untold(uint64_t *answer, size_t nanswer, oracle::Refusal refusal, uint64_t inner) {
    // Six places are written and the last is left as lent (55); that of the inner length is left so (62), or holds the
    // inner length, where it was counted (56).
    size_t places = FAULT == 55 ? HEQDANU_CORNERS : HEQDANU_MEASURE_ANSWER;
    uint64_t lent = answer[HEQDANU_INNER_LENGTH];
    refused(answer, std::min(nanswer, places), refusal);
    if (FAULT == 62) answer[HEQDANU_INNER_LENGTH] = lent;
    if (FAULT == 56) answer[HEQDANU_INNER_LENGTH] = inner;
    return 1;
}

uint8_t measure(const oracle::List &list, uint32_t *work, size_t nwork, uint64_t *answer, size_t nanswer) {
    // The index is stored before the answer's places are counted.
    if (FAULT == 57 && check(list, nwork).number == 0) put_index(list, work, nwork);
    if (!measurable(nanswer)) return 0;
    oracle::Refusal refusal = check(list, nwork);
    if (refusal.number != 0) return untold(answer, nanswer, refusal, 0);
    put_index(list, work, nwork);
    return told(answer, nanswer, counted(list));
}

// What the shots of an accepted list are credited with.
std::vector<uint32_t> credited(const oracle::List &list) {
    size_t shots = list.shots();
    std::vector<uint32_t> credits = oracle::credits(list), all;
    // Each cell goes to its highest covering shot.
    if (FAULT == 26) {
        std::vector<uint16_t> coords;
        for (size_t shot = shots; shot-- > 0;)
            coords.insert(coords.end(), list.coords + 3 * shot, list.coords + 3 * shot + 3);
        credits = oracle::credits({list.field, list.edge, list.grid, coords.data(), coords.size()});
        std::reverse(credits.begin(), credits.end());
    }
    // A repeat is credited as the shot that it repeats.
    for (size_t shot = 0; FAULT == 27 && shot < shots; shot++)
        for (size_t earlier = 0; earlier < shot; earlier++)
            if (std::equal(list.coords + 3 * shot, list.coords + 3 * shot + 3, list.coords + 3 * earlier))
                credits[shot] = credits[earlier];
    // A grid cell's block is one cell too wide on x, so that the cells after a grid plane count twice (33); the cells
    // at the field's far side are left out (42).
    for (size_t shot = 0; shot < shots; shot++) all.push_back(uint32_t(shot));
    for (int i = 0; (FAULT == 33 || FAULT == 42) && list.field <= 40 && i < list.field; i++) {
        bool twice = FAULT == 33 && i > 0 && i % (list.field / list.grid) == 0;
        bool never = FAULT == 42 && i == list.field - 1;
        for (int j = 0; (twice || never) && j < list.field; j++)
            for (int k = 0; k < list.field; k++) {
                const uint16_t cell[3] = {uint16_t(i), uint16_t(j), uint16_t(k)};
                int64_t shot = oracle::first_covering(list, all, cell);
                if (shot >= 0) credits[size_t(shot)] += twice ? 1 : uint32_t(-1);
            }
    }
    // Credits have 16 bits.
    for (uint32_t &credit : credits)
        if (FAULT == 41) credit &= 65535;
    return credits;
}

// Whether the start, the end or the rate of a band is refused, with faults 98 to 128.
bool refuses_start(const oracle::Table &table, size_t number) {
    uint64_t first = table[number].first, before = number == 0 ? 0 : table[number - 1].last;
    // The first band starts anywhere.
    if (number == 0) return FAULT != 121 && oracle::starts_wrong(table, number);
    // A gap (98) or an overlap (99) of one is taken; the place behind an end wraps (120), or has 32 bits (128).
    if (FAULT == 98 && first == before + 2) return false;
    if (FAULT == 99 && first == before) return false;
    if (FAULT == 120) return first != before + 1;
    if (FAULT == 128) return uint32_t(first) != uint32_t(before + 1);
    return oracle::starts_wrong(table, number);
}

bool refuses_end(const oracle::Table &table, size_t number) {
    const oracle::Band &band = table[number];
    // An end one past the top is taken (102), or one whose next place wraps (120), or one before the start (122).
    if (FAULT == 102 && band.last == oracle::TOP + 1) return false;
    if (FAULT == 120) return band.last < band.first || band.last + 1 > oracle::TOP + 1;
    if (FAULT == 122) return band.last > oracle::TOP;
    return oracle::ends_wrong(table, number);
}

bool refuses_rate(const oracle::Table &table, size_t number) {
    // 10,001 cents are taken (104), 10,000 are not (105); a rate has 32 bits (127).
    uint64_t cents = FAULT == 127 ? uint32_t(table[number].cents) : table[number].cents;
    return cents > oracle::MOST_CENTS + (FAULT == 104) - (FAULT == 105);
}

bool refuses_band(const oracle::Table &table, size_t number) {
    return refuses_start(table, number) || refuses_end(table, number) || refuses_rate(table, number);
}

// Refusal 18 of one table, with faults 98 to 139.
oracle::Refusal refuse_table(const oracle::Table &table) {
    size_t bands = table.size(), first = oracle::first_band(table, refuses_band);
    // 64 bands are too many (106), or 65 are not (107); their number is told (108), or the first faulty one (139).
    if (bands > oracle::MOST_BANDS - (FAULT == 106) + (FAULT == 107))
        return oracle::invalid_table(FAULT == 108 ? bands : FAULT == 139 ? first : oracle::MOST_BANDS);
    // An empty table is taken.
    if (bands == 0) return FAULT == 124 ? oracle::Refusal{0, 0} : oracle::check_table(table);
    // What stands behind the top is not looked at.
    auto ends_at_top = [](const oracle::Table &all, size_t number) { return all[number].last == oracle::TOP; };
    if (FAULT == 123 && oracle::first_band(table, ends_at_top) < first) return {0, 0};
    // The last faulty band is named (110), or the one behind the first (109).
    for (size_t number = first; FAULT == 110 && number < bands; number++)
        if (refuses_band(table, number)) first = number;
    if (first < bands) return oracle::invalid_table(first + (FAULT == 109));
    // The top may be missing (103); if it is, the last band is named (125).
    bool whole = table[bands - 1].last >= oracle::TOP || FAULT == 103;
    return whole ? oracle::Refusal{0, 0} : oracle::invalid_table(bands - (FAULT == 125));
}

// The refusal of the first invalid table of three. Area's is tested first (111), the edge length's before area's (126)
// or never (112).
oracle::Refusal refuse_tables(const std::vector<oracle::Table> &tables) {
    std::vector<size_t> order = {0, 1, 2};
    if (FAULT == 111) std::swap(order[0], order[1]);
    if (FAULT == 126) std::swap(order[1], order[2]);
    if (FAULT == 112) order.pop_back();
    uint64_t before = 0;
    for (size_t place : order) {
        oracle::Refusal refusal = refuse_table(tables[place]);
        // Bands are numbered through all tables.
        if (FAULT == 137 && refusal.number != 0) refusal.detail += before;
        if (refusal.number != 0) return refusal;
        before += tables[place].size();
    }
    return {0, 0};
}

// What an amount costs, with faults 100, 101, 113 and 134; nothing by a table that was taken and does not begin.
uint64_t cost(const oracle::Table &table, uint64_t amount) {
    if (table.empty() || table[0].first > amount) return 0;
    size_t band = oracle::holding(table, amount);
    // The next rate holds from the last amount on (100), or the rate before up to the first one (101).
    if (FAULT == 100 && amount == table[band].last && band + 1 < table.size()) return amount * table[band + 1].cents;
    if (FAULT == 101 && amount == table[band].first && band > 0) return amount * table[band - 1].cents;
    // Each unit has the rate of its own band.
    uint64_t cents = FAULT == 113 ? 0 : oracle::charge(table, amount);
    for (size_t number = 0; FAULT == 113 && number <= band; number++) {
        uint64_t before = number == 0 ? 0 : table[number - 1].last;
        cents += (std::min(amount, table[number].last) - before) * table[number].cents;
    }
    // Charges have 32 bits.
    return FAULT == 134 ? uint32_t(cents) : cents;
}

// The three charges of an accepted list.
std::vector<uint64_t> charges(const oracle::List &list, const std::vector<oracle::Table> &tables) {
    oracle::Measured totals = counted(list);
    // The inner length is charged in the place of the outer one (114), or with it (115).
    if (FAULT == 114) totals.edge = totals.inner;
    if (FAULT == 115) totals.edge += totals.inner;
    // Area and edge length have each other's table (132), or place in the answer (133).
    std::vector<uint64_t> cents = {cost(tables[0], totals.volume), cost(tables[FAULT == 132 ? 2 : 1], totals.area),
                                   cost(tables[FAULT == 132 ? 1 : 2], totals.edge)};
    if (FAULT == 133) std::swap(cents[1], cents[2]);
    return cents;
}

oracle::Table table_of(const heqdanu_band *bands, size_t nbands) {
    oracle::Table table;
    for (size_t number = 0; number < nbands; number++)
        table.push_back({bands[number].first, bands[number].last, bands[number].cents});
    return table;
}

// Whether a record of a shot file, behind one with the map `before`, is refused by 17, with faults 78 to 88.
bool needless(const oracle::Record &record, uint8_t before) {
    // No field is ever needless (78), none of the header (81), not the first shot's 0 (82).
    if (FAULT == 78 || (FAULT == 81 && record.number == 0) || (FAULT == 82 && record.number == 1)) return false;
    int fields = 0, repeats = 0;
    for (int bit = 0; bit < 3; bit++) {
        bool shot = record.number > 0;
        uint16_t said = record.said[bit], absent = record.absent[bit];
        // A field that is left out is needless too.
        if (!record.has(bit) && FAULT != 84) continue;
        // x is not looked at (79); z is held to what y's absence means (80), and the grid size to 8 (88).
        if (FAULT == 79 && shot && bit == 0) continue;
        if (FAULT == 80 && shot && bit == 2) absent = record.absent[1];
        if (FAULT == 88 && !shot && bit == 2) absent = 8;
        // A repeat is taken where the shot before leaves its own field out.
        if (FAULT == 83 && record.number > 1 && !(before >> bit & 1)) continue;
        // Low bytes alone are compared (86); a 0 is needless in every shot (87).
        bool same = FAULT == 86 ? (said & 255) == (absent & 255) : said == absent;
        fields++;
        repeats += same || (FAULT == 87 && shot && said == 0);
    }
    // A record is refused only if all its fields are needless.
    return FAULT == 85 ? fields > 0 && repeats == fields : repeats > 0;
}

// Whether the record at a place, all of it or what is left of it, has a whole field that says what its absence would
// mean. The records before it are good.
bool needless_at(const uint8_t *bytes, size_t nbytes, size_t at) {
    const uint16_t none[3] = {0, 0, 0};
    std::vector<uint16_t> shots = oracle::read(bytes, at, 12288).coords;
    const uint16_t *absent = at == 0 ? oracle::ABSENT : shots.empty() ? none : &shots[shots.size() - 3];
    size_t field = at + 1;
    for (int bit = 0; bit < 3 && field + 1 < nbytes; bit++) {
        if (!(bytes[at] >> bit & 1)) continue;
        if ((bytes[field] | bytes[field + 1] << 8) == absent[bit]) return true;
        field += 2;
    }
    return false;
}

// What a shot file holds, with faults 78 to 95.
oracle::File held_shots(const uint8_t *bytes, size_t nbytes, size_t ncoords) {
    uint8_t before = 0;
    oracle::File held = oracle::read_by(bytes, nbytes, ncoords, [&](const oracle::Record &record) {
        bool refused = needless(record, before);
        before = record.map;
        return refused;
    });
    oracle::Refusal &refusal = held.refusal;
    // 17 comes before 5 (89), 4 (90), 3 (91) or 2 (92).
    bool early = (FAULT == 89 && refusal.number == 5) || (FAULT == 90 && refusal.number == 4) ||
                 (FAULT == 91 && refusal.number == 3) || (FAULT == 92 && refusal.number == 2);
    if (early && needless_at(bytes, nbytes, refusal.detail)) refusal.number = 17;
    if (refusal.number != 17) return held;
    // Any other fault of a later record comes first.
    if (FAULT == 93) {
        oracle::File other = oracle::read_by(bytes, nbytes, ncoords, [](const oracle::Record &) { return false; });
        if (other.refusal.number != 0) return other;
    }
    // The detail is the record's end (94), or the place behind its map (95).
    uint8_t map = bytes[refusal.detail];
    if (FAULT == 94) refusal.detail += 2 * uint64_t((map & 1) + (map >> 1 & 1) + (map >> 2 & 1));
    if (FAULT == 94 || FAULT == 95) refusal.detail++;
    return held;
}

// The VOX file as the stand-in looks at it: faults 14 to 16 change bytes of it.
std::vector<uint8_t> looked_at(const uint8_t *bytes, size_t nbytes) {
    std::vector<uint8_t> file(bytes, bytes + nbytes);
    if (nbytes < 60) return file;
    // A voxel equal to its side is taken.
    for (size_t axis = 0; axis < 3; axis++)
        if (FAULT == 14 && file[32 + 4 * axis] > 0 && file[32 + 4 * axis] < 255) file[32 + 4 * axis]++;
    size_t after = 60 + 4 * size_t(oracle::vox_number(bytes, 56));
    // Colour 0 is taken.
    for (size_t at = 63; FAULT == 15 && at < std::min(after, nbytes); at += 4) file[at] |= 1;
    // Children of a later chunk are taken for chunks.
    while (FAULT == 16 && after + 12 <= nbytes) {
        std::fill(file.begin() + long(after + 8), file.begin() + long(after + 12), uint8_t(0));
        after += 12 + oracle::vox_number(bytes, after + 4);
    }
    return file;
}

// What a VOX file holds, with faults 14 to 18 and 97.
oracle::File held_vox(const uint8_t *bytes, size_t nbytes, size_t ncoords) {
    std::vector<uint8_t> file = looked_at(bytes, nbytes);
    oracle::File held = oracle::read_vox(file.data(), nbytes, ncoords);
    if (held.refusal.number == 0) {
        // The field is the largest side, or with fault 17 the smallest.
        auto sides = {oracle::vox_number(bytes, 32), oracle::vox_number(bytes, 36), oracle::vox_number(bytes, 40)};
        held.header[0] = uint16_t(FAULT == 17 ? std::min(sides) : std::max(sides));
    }
    // A voxel is looked at before the places are counted.
    if (FAULT == 18 && held.refusal.number == 3) {
        oracle::File roomy = oracle::read_vox(file.data(), nbytes, 12288);
        if (roomy.refusal.number == 15) return roomy;
    }
    // A voxel that has the x of the one before is refused as a shot's record would be.
    for (size_t at = 3; FAULT == 97 && held.refusal.number == 0 && at < held.coords.size(); at += 3)
        if (held.coords[at] == held.coords[at - 3]) held.refusal = {17, 60 + 4 * (at / 3)};
    return held;
}

// The part of a listing at one x, by the x of its records, with faults 63 to 71.
oracle::Part found(std::vector<uint16_t> &xs, const uint8_t *listing, size_t nlisting, uint16_t x) {
    // An x is compared by its low byte (63), or is none above 1,024 (64).
    for (uint16_t &own : xs) own = FAULT == 63 ? uint16_t((own & 255) | (x & ~255)) : own;
    if (FAULT == 64 && x > 1024) return {0, 0};
    // The search stops at a larger x (65), or takes half of the records at a time, as if x never fell (66).
    if (FAULT == 65) xs.erase(std::find_if(xs.begin(), xs.end(), [&](uint16_t own) { return own > x; }), xs.end());
    size_t from = FAULT == 66 ? size_t(std::lower_bound(xs.begin(), xs.end(), x) - xs.begin()) : 0;
    oracle::Part part = oracle::run_from(xs, from, x);
    if (part.end == 0) return FAULT == 67 ? oracle::Part{nlisting, nlisting} : part;
    // The second run is taken (68), or all from the first record with that x to the last (69).
    oracle::Part second = oracle::run_from(xs, part.end / 7, x);
    if (FAULT == 68 && second.end != 0) return second;
    auto last = std::find(xs.rbegin(), xs.rend(), x);
    if (FAULT == 69) part.end = 7 * size_t(xs.rend() - last);
    // The run's last record is lost (70); a record that is cut is taken with it (71).
    if (FAULT == 70) part.end -= 7;
    bool cut = nlisting - part.end >= 2 && nlisting - part.end < 7;
    if (FAULT == 71 && cut && (listing[part.end] | listing[part.end + 1] << 8) == x) part.end = nlisting;
    return part;
}

}  // namespace

extern "C" uint8_t heqdanu_measure(uint16_t field, uint16_t edge, uint16_t grid, const uint16_t *coords, size_t ncoords,
                                   uint32_t *work, size_t nwork, uint64_t *answer, size_t nanswer) {
    return measure({field, edge, grid, coords, ncoords}, work, nwork, answer, nanswer);
}

extern "C" uint8_t heqdanu_recount(uint16_t field, uint16_t edge, uint16_t grid, const uint16_t *coords, size_t ncoords,
                                   uint32_t *work, size_t nwork, uint64_t *answer, size_t nanswer) {
    uint8_t written = measure({field, edge, grid, coords, ncoords}, work, nwork, answer, nanswer);
    // Counting again, three covered cells count as edge length too.
    if (FAULT == 58 && written == 1) answer[HEQDANU_EDGE_LENGTH] += answer[HEQDANU_INNER_LENGTH];
    return written;
}

extern "C" uint8_t heqdanu_index(uint16_t field, uint16_t edge, uint16_t grid, const uint16_t *coords, size_t ncoords,
                                 uint32_t *work, size_t nwork, uint64_t *answer, size_t nanswer) {
    if (nanswer < HEQDANU_INDEX_ANSWER) return 0;
    oracle::List list = {field, edge, grid, coords, ncoords};
    oracle::Refusal refusal = check(list, nwork);
    if (refusal.number == 0 && (FAULT != 13 || list.shots() > 1)) put_index(list, work, nwork);
    return answered(answer, {refusal.number, refusal.detail});
}

extern "C" uint8_t heqdanu_credit(uint16_t field, uint16_t edge, uint16_t grid, const uint16_t *coords, size_t ncoords,
                                  uint32_t *work, size_t nwork, uint32_t *credits, size_t ncredits, uint64_t *answer,
                                  size_t nanswer) {
    oracle::List list = {field, edge, grid, coords, ncoords};
    size_t shots = list.shots();
    oracle::Refusal refusal = check(list, nwork);
    // The index is stored before the answer's places are counted.
    if (FAULT == 37 && refusal.number == 0) put_index(list, work, nwork);
    if (nanswer < HEQDANU_CREDIT_ANSWER) return 0;
    bool few = FAULT == 28 ? ncredits <= shots : ncredits < shots;
    // 16 comes before 10.
    if (FAULT == 38 && refusal.number == 10 && few) refusal = oracle::short_credits(shots);
    // The credits are cleared before the work slice is looked at.
    if (FAULT == 39 && refusal.number == 10) std::fill(credits, credits + ncredits, 0);
    if (refusal.number != 0) return answered(answer, {refusal.number, refusal.detail});
    // The credit places are counted before the index is stored.
    if (FAULT != 30 || !few) put_index(list, work, nwork);
    // Refusal 16 clears the credits.
    if (FAULT == 32 && few) std::fill(credits, credits + ncredits, 0);
    if (few) return refused(answer, HEQDANU_CREDIT_ANSWER, oracle::short_credits(FAULT == 29 ? ncredits : shots));
    std::vector<uint32_t> counted = credited(list);
    // Credits are added to what was lent.
    for (size_t shot = 0; shot < shots; shot++) credits[shot] = counted[shot] + (FAULT == 40 ? credits[shot] : 0);
    if (FAULT == 31) std::fill(credits + shots, credits + ncredits, 0);
    return answered(answer, {0, 0});
}

extern "C" uint8_t heqdanu_price(uint16_t field, uint16_t edge, uint16_t grid, const uint16_t *coords, size_t ncoords,
                                 uint32_t *work, size_t nwork, const heqdanu_band *volume, size_t nvolume,
                                 const heqdanu_band *area, size_t narea, const heqdanu_band *edges, size_t nedges,
                                 uint64_t *answer, size_t nanswer) {
    oracle::List list = {field, edge, grid, coords, ncoords};
    std::vector<oracle::Table> tables = {table_of(volume, nvolume), table_of(area, narea), table_of(edges, nedges)};
    oracle::Refusal refusal = check(list, nwork), invalid = refuse_tables(tables);
    // The tables do not matter to a list without shots.
    if (FAULT == 140 && ncoords == 0) invalid = {0, 0};
    // The index is stored before the answer's places are counted.
    if (FAULT == 119 && refusal.number == 0) put_index(list, work, nwork);
    // Four places are taken for enough.
    size_t places = std::min<size_t>(nanswer, HEQDANU_PRICE_ANSWER);
    if (nanswer < HEQDANU_PRICE_ANSWER - (FAULT == 129)) return 0;
    // 18 comes before 10 (116), or before all other refusals (136).
    bool early = (FAULT == 116 && refusal.number == 10) || FAULT == 136;
    if (early && invalid.number != 0) refusal = invalid;
    if (refusal.number != 0) return refused(answer, places, refusal);
    // 18 leaves the work slice as it was.
    if (FAULT != 117 || invalid.number == 0) put_index(list, work, nwork);
    // The entry behind the index is cleared.
    if (FAULT == 131 && oracle::need(list) < nwork) work[oracle::need(list)] = 0;
    // A band is changed.
    if (FAULT == 135 && nedges > 0) const_cast<heqdanu_band *>(edges)[nedges - 1].cents ^= 1;
    // 18 leaves the charges as lent (138), or they are told (118).
    if (invalid.number != 0 && FAULT == 138) return answered(answer, {invalid.number, invalid.detail});
    refused(answer, places, invalid);
    if (invalid.number != 0 && FAULT != 118) return 1;
    std::copy_n(charges(list, tables).begin(), places - 2, answer + 2);
    // The place behind the answer is cleared.
    if (FAULT == 130 && nanswer > places) answer[places] = 0;
    return 1;
}

extern "C" uint8_t heqdanu_covers(uint16_t edge, const uint16_t *coords, size_t ncoords, const uint32_t *run,
                                  size_t nrun, uint16_t i, uint16_t j, uint16_t k, uint64_t *answer, size_t nanswer) {
    // One place is taken for enough.
    if (FAULT == 36 && nanswer == 1) answer[0] = 0;
    if (nanswer < HEQDANU_COVERS_ANSWER) return 0;
    oracle::List list = {0, edge, 0, coords, ncoords};
    const uint16_t cell[3] = {i, j, k};
    std::vector<uint32_t> asked(run, run + nrun);
    // The last covering shot is named.
    if (FAULT == 24) std::reverse(asked.begin(), asked.end());
    // The last shot of a run is left out.
    if (FAULT == 21 && nrun > 1) asked.pop_back();
    // A number past the list stands for the last shot.
    for (uint32_t &shot : asked)
        if (FAULT == 22 && list.shots() > 0) shot = std::min(shot, uint32_t(list.shots() - 1));
    // The last cell that 16 bits can name is covered by nothing.
    if (FAULT == 23 && *std::max_element(cell, cell + 3) == 65535) return answered(answer, {0, 0});
    int64_t shot = oracle::first_covering(list, asked, cell);
    // Where none covers the cell, the shot's place is left as lent.
    if (shot < 0) return answered(answer, {0, FAULT == 35 ? answer[1] : 0});
    // The run's first shot is named, whether or not it covers the cell (25), or the place in the run (34).
    if (FAULT == 25) shot = asked[0];
    if (FAULT == 34) shot = std::find(asked.begin(), asked.end(), uint32_t(shot)) - asked.begin();
    return answered(answer, {1, uint64_t(shot)});
}

extern "C" uint8_t heqdanu_list(uint16_t field, uint16_t edge, uint16_t grid, const uint16_t *coords, size_t ncoords,
                                uint32_t *work, size_t nwork, uint8_t *listing, size_t nlisting, uint64_t *answer,
                                size_t nanswer) {
    if (!measurable(nanswer)) return 0;
    oracle::List list = {field, edge, grid, coords, ncoords};
    oracle::Refusal refusal = check(list, nwork);
    if (refusal.number != 0) return untold(answer, nanswer, refusal, 0);
    oracle::Measured result = counted(list);
    if (FAULT != 7 || nlisting >= result.listing.size()) put_index(list, work, nwork);
    if (nlisting < result.listing.size())
        return untold(answer, nanswer, oracle::short_listing(result.corners), result.inner);
    if (FAULT == 8 && result.corners > 8) std::swap(result.listing[6], result.listing[13]);
    std::copy(result.listing.begin(), result.listing.end(), listing);
    // Listing takes both lengths for one.
    if (FAULT == 59) result.edge += result.inner;
    return told(answer, nanswer, result);
}

extern "C" uint8_t heqdanu_corners_at(const uint8_t *listing, size_t nlisting, uint16_t x, uint64_t *answer,
                                      size_t nanswer) {
    std::vector<uint16_t> xs = oracle::record_xs(listing, nlisting);
    oracle::Part part = found(xs, listing, nlisting, x);
    // Three places are taken for enough.
    if (FAULT == 72 && nanswer == 3) return answered(answer, {0, 0, part.first});
    // Too short an answer is cleared.
    if (FAULT == 73 && nanswer < HEQDANU_CORNERS_AT_ANSWER) std::fill(answer, answer + nanswer, 0);
    if (nanswer < HEQDANU_CORNERS_AT_ANSWER) return 0;
    // The first two places are left as lent (74), and so are the last two where nothing is found (75).
    if (FAULT != 74) answered(answer, {0, 0});
    if (FAULT != 75 || part.end > 0) answered(answer + 2, {part.first, part.end});
    // The place behind the answer is cleared.
    if (FAULT == 76 && nanswer > HEQDANU_CORNERS_AT_ANSWER) answer[HEQDANU_CORNERS_AT_ANSWER] = 0;
    // The byte behind the part is changed.
    if (FAULT == 77 && part.end < nlisting) const_cast<uint8_t *>(listing)[part.end] ^= 1;
    return 1;
}

extern "C" uint8_t heqdanu_read(const uint8_t *bytes, size_t nbytes, uint16_t *coords, size_t ncoords, uint64_t *answer,
                                size_t nanswer) {
    // Reading asks for the seven places of measuring.
    if (nanswer < (FAULT == 60 ? HEQDANU_ANSWER : HEQDANU_READ_ANSWER)) return 0;
    oracle::File file = held_shots(bytes, nbytes, ncoords);
    if (FAULT == 9 && file.refusal.number == 3 && nbytes > 0 && bytes[nbytes - 1] > 7) file.refusal.number = 4;
    if (file.refusal.number != 0) {
        if (FAULT == 10 && file.refusal.number == 5 && ncoords > 0) coords[0] = 0;
        // The shots before a needless field are stored.
        if (FAULT == 96 && file.refusal.number == 17) {
            std::vector<uint16_t> shots = oracle::read(bytes, file.refusal.detail, ncoords).coords;
            std::copy(shots.begin(), shots.end(), coords);
        }
        // The place behind the answer is cleared.
        bool behind = FAULT == 61 && nanswer > HEQDANU_READ_ANSWER;
        return refused(answer, HEQDANU_READ_ANSWER + behind, file.refusal);
    }
    // A grid size that is left out is taken for 8.
    if (FAULT == 20 && (bytes[0] & 4) == 0) file.header[2] = 8;
    std::copy(file.coords.begin(), file.coords.end(), coords);
    return answered(answer, {0, 0, file.header[0], file.header[1], file.header[2], file.coords.size() / 3});
}

extern "C" uint8_t heqdanu_read_vox(const uint8_t *bytes, size_t nbytes, uint16_t *coords, size_t ncoords,
                                    uint64_t *answer, size_t nanswer) {
    if (nanswer < HEQDANU_READ_ANSWER) return 0;
    oracle::File file = held_vox(bytes, nbytes, ncoords);
    if (file.refusal.number != 0) {
        // Voxels are stored before a later chunk is looked at.
        if (FAULT == 19 && file.refusal.number == 14 && file.refusal.detail > 60 && ncoords > 0) coords[0] = bytes[60];
        return refused(answer, HEQDANU_READ_ANSWER, file.refusal);
    }
    std::copy(file.coords.begin(), file.coords.end(), coords);
    return answered(answer, {0, 0, file.header[0], file.header[1], file.header[2], file.coords.size() / 3});
}

extern "C" uint8_t heqdanu_write(uint16_t field, uint16_t edge, uint16_t grid, const uint16_t *coords, size_t ncoords,
                                 uint8_t *bytes, size_t nbytes, uint64_t *answer, size_t nanswer) {
    if (nanswer < HEQDANU_WRITE_ANSWER) return 0;
    oracle::List list = {field, edge, grid, coords, ncoords};
    oracle::Refusal refusal = oracle::check(list);
    if (refusal.number != 0) return refused(answer, HEQDANU_WRITE_ANSWER, refusal);
    std::vector<uint8_t> file = oracle::write(list);
    if (FAULT == 11 && nbytes > file.size()) bytes[file.size()] = 0;
    if (nbytes < file.size()) return refused(answer, HEQDANU_WRITE_ANSWER, oracle::short_file(file.size()));
    // The grid size that is left out is counted.
    bool left_out = list.grid == oracle::ABSENT[2];
    if (FAULT == 12 && left_out && file.size() > 30)
        return refused(answer, HEQDANU_WRITE_ANSWER, oracle::short_file(file.size() + 2));
    std::copy(file.begin(), file.end(), bytes);
    return answered(answer, {0, 0, file.size()});
}
