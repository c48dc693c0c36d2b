// The fuzz target: calls of heqdanu.h on any bytes, held to a brute-force oracle.
//
// The input's first six bytes choose the buffers' lengths and how the list is made; the rest is a file. It is read as a
// VOX file, with MAIN's size put right or a voxel repeated past 4,096 times where that is chosen, and as a shot file,
// in its shortest form where that is chosen; a shot file that is read must be the shortest of its list. What list the
// bytes say, whether or not they are read, goes through measure, recount, index, list, credit, price and write, as it
// is or squeezed into a small field, and the file's bytes are the price tables, valid, broken or of any numbers, the
// runs of the cover test and a listing, in which corners_at looks for the corners at one x, as it does in the list's
// own. Answers and every place of every buffer must be the oracle's. Lists whose cells are too many to count here are
// held to what the calls say of each other: a listing's sums give the totals, and what is written reads back.
//
// The archive carries no sanitizer, so each lent buffer ends where an unmapped page begins, and the bytes before it are
// looked at afterwards. The address and undefined-behaviour sanitizers watch this file and the oracle.
#include "../include/heqdanu.h"
#include "oracle.hpp"

#include <sys/mman.h>
#include <unistd.h>

#include <cstdio>
#include <cstdlib>
#include <cstring>

static bool operator==(const heqdanu_band &one, const heqdanu_band &other) {
    return one.first == other.first && one.last == other.last && one.cents == other.cents;
}

namespace {

const size_t MOST_ENTRIES = size_t(1) << 20;
const size_t MOST_LISTING = size_t(1) << 22;
const size_t MOST_CELLS = 20000;
const size_t MOST_SHOTS = 4096;
const int RECOUNT_FIELD = 24;
// The most steps for which credits are counted, where every cell asks every shot.
const uint64_t CREDIT_STEPS = 3000000;

const uint8_t *input;
size_t input_length;

[[noreturn]] void fail(const char *call, const char *what) {
    fprintf(stderr, "fault: %s: %s\nfile:", call, what);
    for (size_t at = 6; at < input_length; at++) fprintf(stderr, " %02x", input[at]);
    fprintf(stderr, "\nchosen by:");
    for (size_t at = 0; at < 6 && at < input_length; at++) fprintf(stderr, " %02x", input[at]);
    fprintf(stderr, "\n");
    abort();
}

void expect(bool holds, const char *call, const char *what) {
    if (!holds) fail(call, what);
}

// A lent buffer that ends at an unmapped page, with a copy for what the oracle expects.
template <class T> class Lent {
    static const size_t BEFORE = 64;
    uint8_t *end;
    size_t capacity;

  public:
    T *places = nullptr;
    size_t length = 0;
    std::vector<T> expected;

    explicit Lent(size_t most) {
        size_t page = size_t(sysconf(_SC_PAGESIZE));
        capacity = (most * sizeof(T) + BEFORE + page - 1) / page * page;
        void *mapped = mmap(nullptr, capacity + page, PROT_READ | PROT_WRITE, MAP_PRIVATE | MAP_ANONYMOUS, -1, 0);
        if (mapped == MAP_FAILED) abort();
        end = static_cast<uint8_t *>(mapped) + capacity;
        if (mprotect(end, page, PROT_NONE) != 0) abort();
    }

    // Lends so many places, as many as there are, with junk in them.
    void lend(size_t wanted, uint8_t junk) {
        length = std::min(wanted, (capacity - BEFORE) / sizeof(T));
        places = reinterpret_cast<T *>(end - length * sizeof(T));
        memset(end - length * sizeof(T) - BEFORE, junk, length * sizeof(T) + BEFORE);
        expected.assign(places, places + length);
    }

    // Compares with what the oracle expects; the bytes before the buffer must still be alike.
    void check(const char *call, const char *what) const {
        const uint8_t *start = reinterpret_cast<const uint8_t *>(places);
        bool before = std::all_of(start - BEFORE, start, [&](uint8_t byte) { return byte == *(start - BEFORE); });
        expect(before, call, "bytes before a buffer changed");
        expect(std::equal(expected.begin(), expected.end(), places), call, what);
    }

    void store(const std::vector<T> &values) { std::copy(values.begin(), values.end(), expected.begin()); }
};

// Buffers are mapped once.
struct Buffers {
    Lent<uint16_t> coords{40000};
    Lent<uint32_t> work{MOST_ENTRIES};
    Lent<uint8_t> listing{MOST_LISTING};
    Lent<uint32_t> credits{MOST_SHOTS + 64};
    Lent<heqdanu_band> tables[3] = {Lent<heqdanu_band>{128}, Lent<heqdanu_band>{128}, Lent<heqdanu_band>{128}};
    Lent<uint8_t> bytes{40000};
    Lent<uint32_t> run{64};
    Lent<uint64_t> answer{32};
};

Buffers &buffers() {
    static Buffers all;
    return all;
}

// A length about what is needed: short by some, exact, or longer.
size_t about(uint64_t need, uint8_t choice) {
    int64_t more = choice < 64 ? -int64_t(choice % 16) : int64_t(choice % 32);
    return size_t(std::max<int64_t>(0, int64_t(std::min<uint64_t>(need, 1u << 30)) + (choice < 16 ? 0 : more)));
}

// Stores the expected answer where it has room, and says whether it has.
bool expect_answer(size_t places, oracle::Refusal refusal, const std::vector<uint64_t> &numbers) {
    std::vector<uint64_t> &answer = buffers().answer.expected;
    if (answer.size() < places) return false;
    std::fill(answer.begin(), answer.begin() + long(places), 0);
    answer[0] = refusal.number;
    answer[1] = refusal.detail;
    if (refusal.number == 0) std::copy(numbers.begin(), numbers.end(), answer.begin() + 2);
    return true;
}

// The five figures in the order of an answer.
std::vector<uint64_t> figures(const oracle::Measured &totals) {
    return {totals.volume, totals.area, totals.edge, totals.inner, totals.corners};
}

// As many places as a call needs, as every call and two to spare, or any few.
size_t answer_places(size_t need, uint8_t choice) {
    return choice < 100 ? need : choice < 200 ? HEQDANU_ANSWER + 2 : choice % 10;
}

typedef uint8_t (*Read)(const uint8_t *, size_t, uint16_t *, size_t, uint64_t *, size_t);
typedef oracle::File (*Reading)(const uint8_t *, size_t, size_t);

// Reads the file with the library, holds it to the oracle, and gives what the file holds.
oracle::File read(const char *call, Read library, Reading reading, const std::vector<uint8_t> &file,
                  const uint8_t *choice) {
    Buffers &lent = buffers();
    size_t places = choice[0] < 128 ? 3 * file.size() : choice[0] % 64;
    lent.bytes.lend(file.size(), 0);
    std::copy(file.begin(), file.begin() + long(lent.bytes.length), lent.bytes.places);
    lent.bytes.expected.assign(lent.bytes.places, lent.bytes.places + lent.bytes.length);
    lent.coords.lend(places, choice[5]);
    lent.answer.lend(answer_places(HEQDANU_READ_ANSWER, choice[4]), choice[5]);
    uint8_t written = library(lent.bytes.places, lent.bytes.length, lent.coords.places, lent.coords.length,
                              lent.answer.places, lent.answer.length);
    oracle::File held = reading(lent.bytes.places, lent.bytes.length, lent.coords.length);
    bool room = expect_answer(HEQDANU_READ_ANSWER, held.refusal,
                              {held.header[0], held.header[1], held.header[2], held.coords.size() / 3});
    if (room && held.refusal.number == 0) lent.coords.store(held.coords);
    expect(written == room, call, "says wrongly whether it answered");
    lent.answer.check(call, "the answer differs");
    lent.coords.check(call, "the coordinates differ");
    lent.bytes.check(call, "the file changed");
    return held;
}

void put_number(std::vector<uint8_t> &file, size_t at, uint64_t number) {
    for (size_t byte = 0; byte < 4; byte++) file[at + byte] = uint8_t(number >> (8 * byte));
}

// The list that any bytes say: the records of a shot file one after another, whatever their fields say. Bits without
// meaning are passed over, a record that the bytes do not fill is left out, and so is what follows one shot too many.
oracle::File said_by(const std::vector<uint8_t> &bytes) {
    oracle::File said;
    uint16_t shot[3] = {0, 0, 0};
    for (size_t at = 0; at < bytes.size() && said.coords.size() < 3 * (MOST_SHOTS + 1);) {
        uint16_t *values = at == 0 ? said.header : shot;
        size_t map = at++;
        size_t fields = size_t((bytes[map] & 1) + (bytes[map] >> 1 & 1) + (bytes[map] >> 2 & 1));
        if (bytes.size() - at < 2 * fields) break;
        for (int bit = 0; bit < 3; bit++) {
            if (!(bytes[map] >> bit & 1)) continue;
            values[bit] = uint16_t(bytes[at] | bytes[at + 1] << 8);
            at += 2;
        }
        if (map > 0) said.coords.insert(said.coords.end(), shot, shot + 3);
    }
    return said;
}

// The shortest file of a list.
std::vector<uint8_t> shortest(const oracle::File &list) {
    return oracle::write({list.header[0], list.header[1], list.header[2], list.coords.data(), list.coords.size()});
}

// The bytes as they are, or as those of a VOX file with MAIN's size of children put right, and with its first voxel
// repeated until there are 4,095 to 4,098; or the shortest file of the list that they say.
std::vector<uint8_t> file_of(const uint8_t *bytes, size_t length, const uint8_t *choice) {
    std::vector<uint8_t> file(bytes, bytes + length);
    if ((choice[5] & 24) == 24 && length >= 64) {
        uint64_t count = oracle::vox_number(bytes, 56), wanted = 4095 + choice[3] % 4;
        std::vector<uint8_t> voxels;
        for (; count < wanted; count++) voxels.insert(voxels.end(), bytes + 60, bytes + 64);
        file.insert(file.begin() + 60, voxels.begin(), voxels.end());
        put_number(file, 56, count);
        put_number(file, 48, 4 + 4 * count);
    }
    if (choice[5] & 8 && length >= 20) put_number(file, 16, file.size() - 20);
    return choice[5] & 64 ? shortest(said_by(file)) : file;
}

// A shot file that is read is the shortest of the list that its bytes say, and holds that list. One that is refused by
// 17 is so at the first byte that is another in the shortest.
void expect_shortest(const oracle::File &held, const std::vector<uint8_t> &file) {
    oracle::File said = said_by(file);
    std::vector<uint8_t> other = shortest(said);
    auto differs = std::mismatch(file.begin(), file.end(), other.begin(), other.end()).first;
    bool same = std::equal(held.header, held.header + 3, said.header) && held.coords == said.coords && file == other;
    expect(held.refusal.number != 0 || same, "read", "takes another file than the shortest");
    bool first = held.refusal.detail == uint64_t(differs - file.begin());
    expect(held.refusal.number != 17 || first, "read", "names another record than the first with a needless field");
}

// The list for the other calls: of a VOX file where it is one, else what the bytes say.
oracle::File read_both(const std::vector<uint8_t> &file, const uint8_t *choice) {
    oracle::File vox = read("read_vox", heqdanu_read_vox, oracle::read_vox, file, choice);
    expect_shortest(read("read", heqdanu_read, oracle::read, file, choice), file);
    if (vox.refusal.number != 0) return said_by(file);
    oracle::List list = {vox.header[0], 1, 1, vox.coords.data(), vox.coords.size()};
    bool quoted = oracle::check(list).number == 0 && oracle::need(list) == list.shots() + 2;
    expect(quoted, "read_vox", "the list is refused");
    return vox;
}

// What the calls on one list are expected to say and store.
struct Expected {
    oracle::Refusal refusal = {0, 0};
    uint64_t need = 0;
    // Whether the cells are counted here, and whether the totals are known, counted or told by the measuring call.
    bool counted = false, known = false;
    oracle::Measured measured;
};

Expected expect_list(const oracle::List &list) {
    Expected expected;
    expected.refusal = oracle::check(list);
    if (expected.refusal.number != 0) return expected;
    expected.need = oracle::need(list);
    uint64_t cells = 1;
    for (int axis = 0; axis < 3 && list.shots() > 0; axis++) {
        int low = 65535, high = 0;
        for (size_t shot = 0; shot < list.shots(); shot++) {
            low = std::min(low, list.at(shot, axis));
            high = std::max(high, list.at(shot, axis));
        }
        cells *= uint64_t(high - low + list.edge);
    }
    expected.counted = expected.known = cells <= MOST_CELLS;
    if (expected.counted) expected.measured = oracle::measured(list);
    return expected;
}

typedef uint8_t (*Measure)(uint16_t, uint16_t, uint16_t, const uint16_t *, size_t, uint32_t *, size_t, uint64_t *, size_t);

// Refusal 10 on top of the list's own.
oracle::Refusal with_work(const Expected &expected, size_t nwork) {
    if (expected.refusal.number == 0 && nwork < expected.need) return oracle::short_work(expected.need);
    return expected.refusal;
}

// Takes the totals of a list that is too large to count here from the measuring call's answer.
void take_uncounted(Expected &expected) {
    const Lent<uint64_t> &answer = buffers().answer;
    if (expected.counted || answer.length < HEQDANU_MEASURE_ANSWER || answer.places[HEQDANU_NUMBER] != 0) return;
    expected.measured.volume = answer.places[2];
    expected.measured.area = answer.places[3];
    expected.measured.edge = answer.places[4];
    expected.measured.inner = answer.places[5];
    expected.measured.corners = answer.places[6];
    expected.known = true;
}

void measure(const char *call, Measure library, const oracle::List &list, Expected &expected, const uint8_t *choice) {
    Buffers &lent = buffers();
    lent.work.lend(about(expected.need, choice[1]), choice[5]);
    lent.answer.lend(answer_places(HEQDANU_MEASURE_ANSWER, choice[4]), choice[5]);
    uint8_t written = library(list.field, list.edge, list.grid, list.coords, list.ncoords, lent.work.places,
                              lent.work.length, lent.answer.places, lent.answer.length);
    take_uncounted(expected);
    oracle::Refusal refusal = with_work(expected, lent.work.length);
    const oracle::Measured &totals = expected.measured;
    bool room = expect_answer(HEQDANU_MEASURE_ANSWER, refusal, figures(totals));
    if (room && refusal.number == 0) lent.work.store(oracle::index(list));
    expect(written == room, call, "says wrongly whether it answered");
    lent.answer.check(call, "the answer differs");
    lent.work.check(call, "the index differs");
}

void index_alone(const oracle::List &list, const Expected &expected, const uint8_t *choice) {
    Buffers &lent = buffers();
    lent.work.lend(about(expected.need, choice[1]), choice[5]);
    lent.answer.lend(answer_places(HEQDANU_INDEX_ANSWER, choice[4]), choice[5]);
    uint8_t written = heqdanu_index(list.field, list.edge, list.grid, list.coords, list.ncoords, lent.work.places,
                                    lent.work.length, lent.answer.places, lent.answer.length);
    oracle::Refusal refusal = with_work(expected, lent.work.length);
    bool room = expect_answer(HEQDANU_INDEX_ANSWER, refusal, {});
    if (room && refusal.number == 0) lent.work.store(oracle::index(list));
    expect(written == room, "index", "says wrongly whether it answered");
    lent.answer.check("index", "the answer differs");
    lent.work.check("index", "the index differs");
}

void list_corners(const oracle::List &list, Expected &expected, const uint8_t *choice) {
    Buffers &lent = buffers();
    lent.work.lend(about(expected.need, choice[1]), choice[5]);
    lent.listing.lend(about(7 * expected.measured.corners, choice[2]), choice[5]);
    lent.answer.lend(answer_places(HEQDANU_MEASURE_ANSWER, choice[4]), choice[5]);
    uint8_t written = heqdanu_list(list.field, list.edge, list.grid, list.coords, list.ncoords, lent.work.places,
                                   lent.work.length, lent.listing.places, lent.listing.length, lent.answer.places,
                                   lent.answer.length);
    const oracle::Measured &totals = expected.measured;
    oracle::Refusal refusal = with_work(expected, lent.work.length);
    bool indexed = refusal.number == 0;
    if (indexed && lent.listing.length < 7 * totals.corners) refusal = oracle::short_listing(totals.corners);
    bool room = expect_answer(HEQDANU_MEASURE_ANSWER, refusal, figures(totals));
    if (room && indexed) lent.work.store(oracle::index(list));
    if (room && refusal.number == 0 && !expected.counted) {
        oracle::Measured sums = oracle::sums(lent.listing.places, totals.corners);
        expect(sums.volume == totals.volume && sums.area == totals.area && sums.edge == totals.edge &&
                   sums.inner == totals.inner,
               "list", "the listing's sums are not the totals");
        lent.listing.store({lent.listing.places, lent.listing.places + 7 * totals.corners});
    }
    if (room && refusal.number == 0 && expected.counted) lent.listing.store(totals.listing);
    expect(written == room, "list", "says wrongly whether it answered");
    lent.answer.check("list", "the answer differs");
    lent.work.check("list", "the index differs");
    lent.listing.check("list", "the listing differs");
}

void credit(const oracle::List &list, const Expected &expected, const uint8_t *choice) {
    Buffers &lent = buffers();
    lent.work.lend(about(expected.need, choice[1]), choice[5]);
    lent.credits.lend(about(list.shots(), choice[2]), choice[5]);
    lent.answer.lend(answer_places(HEQDANU_CREDIT_ANSWER, choice[4]), choice[5]);
    oracle::Refusal refusal = with_work(expected, lent.work.length);
    bool indexed = refusal.number == 0;
    if (indexed && lent.credits.length < list.shots()) refusal = oracle::short_credits(list.shots());
    uint64_t field = list.field;
    if (refusal.number == 0 && field * field * field * (list.shots() + 1) > CREDIT_STEPS) return;
    uint8_t written = heqdanu_credit(list.field, list.edge, list.grid, list.coords, list.ncoords, lent.work.places,
                                     lent.work.length, lent.credits.places, lent.credits.length, lent.answer.places,
                                     lent.answer.length);
    bool room = expect_answer(HEQDANU_CREDIT_ANSWER, refusal, {});
    if (room && indexed) lent.work.store(oracle::index(list));
    if (room && refusal.number == 0) lent.credits.store(oracle::credits(list));
    expect(written == room, "credit", "says wrongly whether it answered");
    lent.answer.check("credit", "the answer differs");
    lent.work.check("credit", "the index differs");
    lent.credits.check("credit", "the credits differ");
}

// The input's bytes one after another from the last on, and then again.
struct Source {
    const uint8_t *bytes;
    size_t length, taken;

    uint64_t next() { return length == 0 ? 0 : bytes[length - 1 - taken++ % length]; }

    // Any number: small, about the top, about the most cents, the highest, or of eight bytes.
    uint64_t number() {
        uint64_t kind = next(), few = kind / 5 % 4, all = 0;
        for (int byte = 0; kind % 5 == 4 && byte < 8; byte++) all = all << 8 | next();
        const uint64_t numbers[] = {few, oracle::TOP - 1 + few, oracle::MOST_CENTS - 1 + few, UINT64_MAX - few, all};
        return numbers[kind % 5];
    }
};

// A valid table of so many bands, or one with nothing wrong but their number. A band ends a small step on, or a large
// one, at the amount, or right before it.
oracle::Table valid_table(Source &source, size_t bands, uint64_t amount) {
    oracle::Table table;
    for (uint64_t first = 0; table.size() < bands; first = table.back().last + 1) {
        uint64_t step = source.next(), behind = bands - table.size() - 1;
        uint64_t last = first + (step < 128 ? step % 16 : step << step % 36);
        if (step >= 192) last = std::max(first + step % 2, amount) - step % 2;
        last = behind == 0 ? oracle::TOP : std::min(last, oracle::TOP - behind);
        table.push_back({first, last, std::min(40 * source.next(), oracle::MOST_CENTS)});
    }
    return table;
}

// Breaks a table at one of its bands.
void break_table(Source &source, oracle::Table &table) {
    size_t place = source.next() % table.size();
    oracle::Band &band = table[place], own = band;
    switch (source.next() % 12) {
    case 0: band.first++; break;
    case 1: band.first--; break;
    case 2: band.last++; break;
    case 3: band.last--; break;
    case 4: band.cents = oracle::MOST_CENTS + 1; break;
    case 5: band.first = source.number(); break;
    case 6: band.last = source.number(); break;
    case 7: band.cents = source.number(); break;
    case 8: std::swap(band.first, band.last); break;
    case 9: table.erase(table.begin() + long(place)); break;
    case 10: table.insert(table.begin() + long(place), own); break;
    default: table.resize(place);
    }
}

// A price table out of the input's bytes: valid, broken at a band, or of any numbers; about the most bands, or few.
oracle::Table table_of(Source &source, uint64_t amount) {
    uint64_t kind = source.next(), count = source.next();
    size_t bands = count < 200 ? 1 + count % 8 : 58 + count % 9;
    if (kind % 4 < 3) {
        oracle::Table table = valid_table(source, bands, amount);
        if (kind % 4 == 2) break_table(source, table);
        return table;
    }
    oracle::Table table(bands - 1);
    for (oracle::Band &band : table) band = {source.number(), source.number(), source.number()};
    return table;
}

void lend_table(Lent<heqdanu_band> &lent, const oracle::Table &table) {
    lent.lend(table.size(), 0);
    for (size_t band = 0; band < table.size(); band++)
        lent.places[band] = {table[band].first, table[band].last, table[band].cents};
    lent.expected.assign(lent.places, lent.places + lent.length);
}

void price(const oracle::List &list, const Expected &expected, Source source, const uint8_t *choice) {
    Buffers &lent = buffers();
    const uint64_t amounts[3] = {expected.measured.volume, expected.measured.area, expected.measured.edge};
    oracle::Table tables[3];
    for (int figure = 0; figure < 3; figure++) {
        tables[figure] = table_of(source, amounts[figure]);
        lend_table(lent.tables[figure], tables[figure]);
    }
    lent.work.lend(about(expected.need, choice[1]), choice[5]);
    lent.answer.lend(answer_places(HEQDANU_PRICE_ANSWER, choice[4]), choice[5]);
    oracle::Refusal refusal = with_work(expected, lent.work.length);
    bool indexed = refusal.number == 0;
    if (indexed && !expected.known) return;
    const Lent<heqdanu_band> &volume = lent.tables[0], &area = lent.tables[1], &edges = lent.tables[2];
    uint8_t written = heqdanu_price(list.field, list.edge, list.grid, list.coords, list.ncoords, lent.work.places,
                                    lent.work.length, volume.places, volume.length, area.places, area.length,
                                    edges.places, edges.length, lent.answer.places, lent.answer.length);
    for (const oracle::Table &table : tables)
        if (refusal.number == 0) refusal = oracle::check_table(table);
    std::vector<uint64_t> charges;
    for (int figure = 0; figure < 3 && refusal.number == 0; figure++)
        charges.push_back(oracle::charge(tables[figure], amounts[figure]));
    bool room = expect_answer(HEQDANU_PRICE_ANSWER, refusal, charges);
    if (room && indexed) lent.work.store(oracle::index(list));
    expect(written == room, "price", "says wrongly whether it answered");
    lent.answer.check("price", "the answer differs");
    lent.work.check("price", "the index differs");
    for (const Lent<heqdanu_band> &table : lent.tables) table.check("price", "a table changed");
}

void write(const oracle::List &list, const uint8_t *choice) {
    Buffers &lent = buffers();
    oracle::Refusal refusal = oracle::check(list);
    std::vector<uint8_t> file = refusal.number == 0 ? oracle::write(list) : std::vector<uint8_t>(9);
    lent.bytes.lend(about(file.size(), choice[3]), choice[5]);
    lent.answer.lend(answer_places(HEQDANU_WRITE_ANSWER, choice[4]), choice[5]);
    uint8_t written = heqdanu_write(list.field, list.edge, list.grid, list.coords, list.ncoords, lent.bytes.places,
                                    lent.bytes.length, lent.answer.places, lent.answer.length);
    if (refusal.number == 0 && lent.bytes.length < file.size()) refusal = oracle::short_file(file.size());
    bool room = expect_answer(HEQDANU_WRITE_ANSWER, refusal, {file.size()});
    if (room && refusal.number == 0) lent.bytes.store(file);
    expect(written == room, "write", "says wrongly whether it answered");
    lent.answer.check("write", "the answer differs");
    lent.bytes.check("write", "the bytes differ");
}

// The cover test: runs made of the file's bytes, each a shot or a number past the list, and for each run a cell about
// one of the shots, or anywhere. The list's coordinates are lent too; the answer has two places, fewer or more.
void cover(const oracle::List &list, const uint8_t *bytes, size_t nbytes, const uint8_t *choice) {
    Buffers &lent = buffers();
    lent.coords.lend(list.ncoords, 0);
    std::copy(list.coords, list.coords + lent.coords.length, lent.coords.places);
    lent.coords.expected.assign(lent.coords.places, lent.coords.places + lent.coords.length);
    oracle::List held = {list.field, list.edge, list.grid, lent.coords.places, lent.coords.length};
    size_t length = choice[1] % 17;
    for (size_t from = 0, turn = 0; turn < 4 && from + 3 < nbytes; from += length + 4, turn++) {
        std::vector<uint32_t> run;
        for (size_t at = from; at < std::min(from + length, nbytes); at++)
            run.push_back(bytes[at] == 255 ? UINT32_MAX : uint32_t(bytes[at] % (held.shots() + 2)));
        const uint8_t *last = bytes + nbytes - 3 - turn;
        uint16_t cell[3];
        for (int axis = 0; axis < 3; axis++) {
            int place = held.shots() == 0 ? 0 : held.at(last[0] % held.shots(), axis);
            int steps[] = {0, held.edge - 1, held.edge, -1, last[axis], held.edge / 2, last[axis] << 8, 0};
            cell[axis] = uint16_t(place + steps[last[axis] % 8]);
        }
        lent.run.lend(run.size(), 0);
        std::copy(run.begin(), run.end(), lent.run.places);
        lent.run.expected = run;
        lent.answer.lend(answer_places(HEQDANU_COVERS_ANSWER, choice[4]), choice[5]);
        uint8_t written = heqdanu_covers(held.edge, lent.coords.places, lent.coords.length, lent.run.places,
                                         lent.run.length, cell[0], cell[1], cell[2], lent.answer.places,
                                         lent.answer.length);
        int64_t shot = oracle::first_covering(held, run, cell);
        bool room = lent.answer.length >= HEQDANU_COVERS_ANSWER;
        if (room) lent.answer.store({uint64_t(shot >= 0), uint64_t(std::max<int64_t>(shot, 0))});
        expect(written == room, "covers", "says wrongly whether it answered");
        lent.answer.check("covers", "the answer differs");
        lent.run.check("covers", "the run changed");
        lent.coords.check("covers", "the coordinates changed");
    }
}

// The corners at one x, mostly that of a record, in a listing, which any bytes are; a listing that the oracle made is
// `whole`, and its corners at one x are all that there are.
void find_corners(const std::vector<uint8_t> &bytes, bool whole, const uint8_t *choice) {
    Buffers &lent = buffers();
    lent.listing.lend(bytes.size(), 0);
    std::copy(bytes.begin(), bytes.begin() + long(lent.listing.length), lent.listing.places);
    lent.listing.expected.assign(lent.listing.places, lent.listing.places + lent.listing.length);
    std::vector<uint16_t> xs = oracle::record_xs(lent.listing.places, lent.listing.length);
    for (unsigned turn = 0; turn < 3; turn++) {
        uint16_t any = uint16_t(choice[2] | choice[3] << 8), own = xs.empty() ? 0 : xs[(any + 5 * turn) % xs.size()];
        const int chosen[] = {own, own, own, own + 1, own - 1, own ^ 256, any, 65535};
        uint16_t x = uint16_t(chosen[(choice[1] + turn) % 8]);
        lent.answer.lend(answer_places(HEQDANU_CORNERS_AT_ANSWER, choice[4]), choice[5]);
        uint8_t written = heqdanu_corners_at(lent.listing.places, lent.listing.length, x, lent.answer.places,
                                             lent.answer.length);
        oracle::Part part = oracle::corners_at(lent.listing.places, lent.listing.length, x);
        bool room = expect_answer(HEQDANU_CORNERS_AT_ANSWER, {0, 0}, {part.first, part.end});
        expect(written == room, "corners_at", "says wrongly whether it answered");
        lent.answer.check("corners_at", "the answer differs");
        lent.listing.check("corners_at", "the listing changed");
        bool all = (part.end - part.first) / 7 == size_t(std::count(xs.begin(), xs.end(), x));
        expect(all || !whole, "corners_at", "the part is not all corners at that x");
    }
}

// The bytes as a listing: as they are, or with each x one of four, so that runs repeat and x falls.
std::vector<uint8_t> listing_of(const uint8_t *bytes, size_t nbytes, const uint8_t *choice) {
    std::vector<uint8_t> listing(bytes, bytes + nbytes);
    for (size_t at = 0; choice[5] & 32 && at + 1 < nbytes; at += 7) {
        listing[at] &= 1;
        listing[at + 1] &= 1;
    }
    return listing;
}

// Squeezes a list into a small field, so that the calls accept it.
void squeeze(uint16_t *header, std::vector<uint16_t> &coords) {
    header[0] = uint16_t(header[0] % 20 + 1);
    header[1] = uint16_t(header[1] % header[0] % 6 + 1);
    if (header[1] > header[0]) header[1] = header[0];
    header[2] = uint16_t(header[2] % header[0] + 1);
    while (header[0] % header[2] != 0) header[2]--;
    for (uint16_t &c : coords) c = uint16_t(c % (header[0] - header[1] + 1));
}

}  // namespace

extern "C" int LLVMFuzzerTestOneInput(const uint8_t *data, size_t size) {
    if (size < 6 || size > 36000) return 0;
    input = data;
    input_length = size;
    oracle::File file = read_both(file_of(data + 6, size - 6, data), data);
    std::vector<uint16_t> coords = file.coords;
    if (data[5] & 1) squeeze(file.header, coords);
    if ((data[5] & 6) == 6 && !coords.empty()) coords.pop_back();
    oracle::List list = {file.header[0], file.header[1], file.header[2], coords.data(), coords.size()};
    uint16_t none = 0;
    if (coords.empty()) list.coords = &none;
    cover(list, data + 6, size - 6, data);
    find_corners(listing_of(data + 6, size - 6, data), false, data);
    Expected expected = expect_list(list);
    find_corners(expected.measured.listing, true, data);
    // The stand-in is slow on large fields.
    static const bool quick = getenv("HEQDANU_TESTS") != nullptr && strcmp(getenv("HEQDANU_TESTS"), "quick") == 0;
    if (quick && expected.refusal.number == 0 && !expected.counted) return 0;
    if (expected.need > 4 * MOST_ENTRIES && data[1] % 8 != 0) return 0;
    measure("measure", heqdanu_measure, list, expected, data);
    if (list.field <= RECOUNT_FIELD || expected.refusal.number != 0)
        measure("recount", heqdanu_recount, list, expected, data);
    index_alone(list, expected, data);
    list_corners(list, expected, data);
    credit(list, expected, data);
    price(list, expected, {data + 6, size - 6, 0}, data);
    write(list, data);
    return 0;
}
