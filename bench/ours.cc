// Ours: one call of heqdanu.h, timed: `ours FILE SECONDS [CALL [WORD]]`, CALL being measure (unless said), list,
// corners_at, index, recount, credit, price, need, read, read_vox or write. `need` is the measuring call with an empty
// work slice: the list's checks and the count of the index's entries. `price` is run in turn with measuring, by three
// tables of 64 bands, whose times stand before its own. FILE is a shot file, a VOX file for read_vox, and a listing for
// corners_at. WORD is for list a file that takes the listing, and for corners_at the x, which is 512 unless said.
#include "../include/heqdanu.h"
#include "common.hpp"

#include <cstring>
#include <string>

static uint64_t answer[HEQDANU_ANSWER];

// The figures of an answer; the index alone has none, and leaves the zeros of the refusal that told the need.
static Totals answered(uint8_t written, uint64_t expected = HEQDANU_ACCEPTED) {
    if (written != 1 || answer[HEQDANU_NUMBER] != expected) {
        fprintf(stderr, "refused %llu %llu\n", (unsigned long long)answer[HEQDANU_NUMBER],
                (unsigned long long)answer[HEQDANU_DETAIL]);
        exit(1);
    }
    Totals totals;
    totals.volume = answer[HEQDANU_VOLUME];
    totals.area = answer[HEQDANU_AREA];
    totals.edge = answer[HEQDANU_EDGE_LENGTH];
    totals.inner = answer[HEQDANU_INNER_LENGTH];
    totals.corners = answer[HEQDANU_CORNERS];
    return totals;
}

// One of the readers, timed; its figures are field, edge, grid, shots and the 0 of a place that it leaves alone.
static int read_again(decltype(heqdanu_read) *reading, const char *path, double patience) {
    std::vector<uint8_t> file = read_bytes(path);
    std::vector<uint16_t> places(12288);
    return report(patience, [&] {
        return answered(reading(file.data(), file.size(), places.data(), places.size(), answer, HEQDANU_ANSWER));
    });
}

// The corners at one x of a listing, timed.
static int find_again(const char *path, double patience, uint16_t x) {
    std::vector<uint8_t> listing = read_bytes(path);
    return report(patience, [&] {
        answered(heqdanu_corners_at(listing.data(), listing.size(), x, answer, HEQDANU_ANSWER));
        Part part;
        part.first = answer[HEQDANU_PART_FIRST], part.end = answer[HEQDANU_PART_END];
        return part;
    });
}

// A table of as many bands as are allowed: each holds one amount, and the last all others, so that an amount is found
// behind all of them. The rate is the band's number, from 1.
static std::vector<heqdanu_band> longest_table() {
    std::vector<heqdanu_band> table;
    for (uint64_t band = 0; band < 64; band++) table.push_back({band, band, band + 1});
    table.back().last = uint64_t(1) << 40;
    return table;
}

// What an amount costs by that table.
static uint64_t longest_charge(uint64_t amount) { return amount * (amount < 63 ? amount + 1 : 64); }

// Pricing, timed in turn with measuring; the charges must be those of the totals.
template <class Measure>
int price_again(const List &list, std::vector<uint32_t> &work, double patience, Measure measure) {
    std::vector<heqdanu_band> volume = longest_table(), area = volume, edges = volume;
    Totals totals = measure();
    return report_in_turn(patience, measure, [&] {
        answered(heqdanu_price(list.field, list.edge, list.grid, list.coords.data(), list.coords.size(), work.data(),
                               work.size(), volume.data(), volume.size(), area.data(), area.size(), edges.data(),
                               edges.size(), answer, HEQDANU_ANSWER));
        Charges charges;
        charges.volume = answer[HEQDANU_VOLUME_CHARGE];
        charges.area = answer[HEQDANU_AREA_CHARGE];
        charges.edge = answer[HEQDANU_EDGE_CHARGE];
        if (charges.volume != longest_charge(totals.volume) || charges.area != longest_charge(totals.area) ||
            charges.edge != longest_charge(totals.edge)) {
            fprintf(stderr, "the charges are not those of the totals\n");
            exit(1);
        }
        return charges;
    });
}

// Stores a listing.
static void keep(const char *path, const std::vector<uint8_t> &listing) {
    FILE *file = fopen(path, "wb");
    if (file == nullptr || fwrite(listing.data(), 1, listing.size(), file) != listing.size() || fclose(file) != 0) {
        perror(path);
        exit(2);
    }
}

int main(int count, char **arguments) {
    double patience = atof(arguments[2]);
    std::string call = count > 3 ? arguments[3] : "measure";
    if (call == "read") return read_again(heqdanu_read, arguments[1], patience);
    if (call == "read_vox") return read_again(heqdanu_read_vox, arguments[1], patience);
    if (call == "corners_at") return find_again(arguments[1], patience, uint16_t(count > 4 ? atoi(arguments[4]) : 512));
    List list = read_list(arguments[1]);
    const uint16_t *coords = list.coords.data();
    size_t ncoords = list.coords.size();
    auto measure = [&](uint32_t *work, size_t nwork) {
        return heqdanu_measure(list.field, list.edge, list.grid, coords, ncoords, work, nwork, answer, HEQDANU_ANSWER);
    };
    uint32_t none = 0;
    answered(measure(&none, 0), HEQDANU_SHORT_WORK);
    std::vector<uint32_t> work(answer[HEQDANU_DETAIL]);
    if (call == "need")
        return report(patience, [&] { return answered(measure(&none, 0), HEQDANU_SHORT_WORK); });
    if (call == "measure") return report(patience, [&] { return answered(measure(work.data(), work.size())); });
    if (call == "price")
        return price_again(list, work, patience, [&] { return answered(measure(work.data(), work.size())); });
    if (call == "index" || call == "recount") {
        auto indexing = call == "index" ? heqdanu_index : heqdanu_recount;
        return report(patience, [&] {
            return answered(indexing(list.field, list.edge, list.grid, coords, ncoords, work.data(), work.size(),
                                     answer, HEQDANU_ANSWER));
        });
    }
    if (call == "credit") {
        std::vector<uint32_t> credits(list.shots());
        return report(patience, [&] {
            answered(heqdanu_credit(list.field, list.edge, list.grid, coords, ncoords, work.data(), work.size(),
                                    credits.data(), credits.size(), answer, HEQDANU_ANSWER));
            return credit_figures(credits);
        });
    }
    if (call == "list") {
        std::vector<uint8_t> listing(HEQDANU_RECORD * answered(measure(work.data(), work.size())).corners + 1);
        int status = report(patience, [&] {
            return answered(heqdanu_list(list.field, list.edge, list.grid, coords, ncoords, work.data(), work.size(),
                                         listing.data(), listing.size(), answer, HEQDANU_ANSWER));
        });
        listing.pop_back();
        if (count > 4) keep(arguments[4], listing);
        return status;
    }
    std::vector<uint8_t> bytes(28680);
    return report(patience, [&] {
        return answered(heqdanu_write(list.field, list.edge, list.grid, coords, ncoords, bytes.data(), bytes.size(),
                                      answer, HEQDANU_ANSWER));
    });
}
