// What the benchmark's programs share: reading a workload's shot file, counting over planes of byte cells, timing.
//
// A program is called `PROGRAM FILE SECONDS`: it measures the file's list again and again for about SECONDS, at least
// once, and prints `volume area edge inner corners WALL CPU PEAK RUNS`: the quickest run's elapsed time and the runs'
// mean processor time, in seconds, and the program's peak memory in KiB. One that credits prints the figures of credits
// in place of the five, one that looks for the corners at one x the places of the part, and one that prices the
// charges, with the times of what was run in turn with it behind them.
#ifndef HEQDANU_BENCH_COMMON_HPP
#define HEQDANU_BENCH_COMMON_HPP

#include <cstddef>
#include <cstdint>
#include <cstdio>
#include <cstdlib>
#include <cstring>
#include <ctime>
#include <initializer_list>
#include <vector>

// What an absent field of a shot file's header means: field side, shot edge, grid size.
const uint16_t ABSENT[3] = {1024, 16, 16};

struct List {
    uint16_t field = 0, edge = 0, grid = 0;
    std::vector<uint16_t> coords;

    size_t shots() const { return coords.size() / 3; }
};

// The figures of a quote; edge is the outer length.
struct Totals {
    uint64_t volume = 0, area = 0, edge = 0, inner = 0, corners = 0;
};

// The figures of credits: their sum, their sum weighted by place modulo 2^64, the shots with none, and the shots.
struct CreditFigures {
    uint64_t sum = 0, weighted = 0, none = 0, shots = 0;
};

// The charges of a list.
struct Charges {
    uint64_t volume = 0, area = 0, edge = 0;
};

// The corners at one x: the place of the part's first byte and the place after its last, 0 and 0 where there is none.
struct Part {
    uint64_t first = 0, end = 0;
};

inline std::vector<uint8_t> read_bytes(const char *path) {
    std::vector<uint8_t> bytes;
    uint8_t part[1 << 12];
    FILE *file = fopen(path, "rb");
    if (file == nullptr) {
        perror(path);
        exit(2);
    }
    while (size_t length = fread(part, 1, sizeof part, file)) bytes.insert(bytes.end(), part, part + length);
    fclose(file);
    return bytes;
}

// The list of a whole shot file.
inline List read_list(const char *path) {
    std::vector<uint8_t> bytes = read_bytes(path);
    List list;
    uint16_t header[3] = {ABSENT[0], ABSENT[1], ABSENT[2]}, shot[3] = {0, 0, 0};
    size_t at = 0;
    auto record = [&](uint16_t *values) {
        uint8_t map = bytes[at++];
        for (int bit = 0; bit < 3; bit++)
            if (map >> bit & 1) {
                values[bit] = uint16_t(bytes[at] | bytes[at + 1] << 8);
                at += 2;
            }
    };
    record(header);
    while (at < bytes.size()) {
        record(shot);
        list.coords.insert(list.coords.end(), shot, shot + 3);
    }
    list.field = header[0];
    list.edge = header[1];
    list.grid = header[2];
    return list;
}

// The kind of a unit edge by the four cells about it, of which p and s share only the edge, and so do q and r: 1 where
// one is covered, 2 where two are that share only the edge, 3 where three are, else 0. Kinds 1 and 2 are outer lengths.
inline uint8_t edge_kind(uint8_t p, uint8_t q, uint8_t r, uint8_t s) {
    return uint8_t((p ^ q ^ r ^ s) + 2 * ((p & s) ^ (q & r)));
}

// 1 for a corner point: the eight cells about it change across every axis.
inline uint8_t is_corner(uint8_t a0, uint8_t a1, uint8_t b0, uint8_t b1, uint8_t c0, uint8_t c1, uint8_t d0,
                         uint8_t d1) {
    uint8_t x = (a0 ^ c0) | (a1 ^ c1) | (b0 ^ d0) | (b1 ^ d1);
    uint8_t y = (a0 ^ b0) | (a1 ^ b1) | (c0 ^ d0) | (c1 ^ d1);
    uint8_t z = (a0 ^ a1) | (b0 ^ b1) | (c0 ^ c1) | (d0 ^ d1);
    return x & y & z;
}

// Adds what belongs to the lattice points of one plane across x: the cells above it, the squares and unit edges that
// start there, and its corner points. A plane of cells has field + 2 rows of field + 2 bytes, 0 or 1, with a margin of
// zeros; `below` and `above` are the planes of cells about the lattice plane.
inline void count_plane(const uint8_t *below, const uint8_t *above, int field, Totals &totals) {
    size_t width = size_t(field) + 2;
    for (int y = 0; y <= field; y++) {
        const uint8_t *a = below + size_t(y) * width, *b = a + width, *c = above + size_t(y) * width, *d = c + width;
        // 16 bits hold what 1,025 points of a row can add, 9 each at most, and let the compiler add in narrow lanes.
        uint16_t volume = 0, area = 0, kinds = 0, inner = 0, corners = 0;
        for (int z = 0; z <= field; z++) {
            uint8_t a0 = a[z], a1 = a[z + 1], b0 = b[z], b1 = b[z + 1];
            uint8_t c0 = c[z], c1 = c[z + 1], d0 = d[z], d1 = d[z + 1];
            uint8_t ex = edge_kind(c0, c1, d0, d1), ey = edge_kind(b0, b1, d0, d1), ez = edge_kind(a1, b1, c1, d1);
            volume += d1;
            area += uint8_t((d1 ^ b1) + (d1 ^ c1) + (d1 ^ d0));
            kinds += uint8_t(ex + ey + ez);
            inner += uint8_t((ex == 3) + (ey == 3) + (ez == 3));
            corners += is_corner(a0, a1, b0, b1, c0, c1, d0, d1);
        }
        totals.volume += volume;
        totals.area += area;
        totals.edge += kinds - 3u * inner;
        totals.inner += inner;
        totals.corners += corners;
    }
}

inline CreditFigures credit_figures(const std::vector<uint32_t> &credits) {
    CreditFigures figures;
    for (size_t shot = 0; shot < credits.size(); shot++) {
        figures.sum += credits[shot];
        figures.weighted += (shot + 1) * uint64_t(credits[shot]);
        figures.none += credits[shot] == 0;
    }
    figures.shots = credits.size();
    return figures;
}

inline void print_numbers(std::initializer_list<uint64_t> numbers) {
    for (uint64_t number : numbers) printf("%llu ", (unsigned long long)number);
}

inline void print(const Totals &figures) {
    print_numbers({figures.volume, figures.area, figures.edge, figures.inner, figures.corners});
}

inline void print(const CreditFigures &figures) {
    print_numbers({figures.sum, figures.weighted, figures.none, figures.shots});
}

inline void print(const Charges &charges) { print_numbers({charges.volume, charges.area, charges.edge}); }

inline void print(const Part &part) { print_numbers({part.first, part.end}); }

inline double seconds(clockid_t clock) {
    timespec now;
    clock_gettime(clock, &now);
    return double(now.tv_sec) + 1e-9 * double(now.tv_nsec);
}

// The most memory that this program has held, in KiB.
inline long peak_memory() {
    long peak = 0;
    char line[256];
    FILE *status = fopen("/proc/self/status", "r");
    while (status != nullptr && fgets(line, sizeof line, status) != nullptr)
        if (strncmp(line, "VmHWM:", 6) == 0) peak = atol(line + 6);
    if (status != nullptr) fclose(status);
    return peak;
}

// Runs `measure` for about so many seconds and prints its figures and its best times.
template <class Measure> int report(double patience, Measure measure) {
    double best_wall = 1e300;
    double start = seconds(CLOCK_MONOTONIC), cpu = seconds(CLOCK_PROCESS_CPUTIME_ID);
    decltype(measure()) figures;
    int runs = 0;
    do {
        double wall = seconds(CLOCK_MONOTONIC);
        figures = measure();
        wall = seconds(CLOCK_MONOTONIC) - wall;
        if (wall < best_wall) best_wall = wall;
        runs++;
    } while (seconds(CLOCK_MONOTONIC) - start < patience);
    cpu = (seconds(CLOCK_PROCESS_CPUTIME_ID) - cpu) / runs;
    print(figures);
    printf("%.9f %.9f %ld %d\n", best_wall, cpu, peak_memory(), runs);
    return 0;
}

// The elapsed time of the quickest of some runs, and the processor time of all.
struct Times {
    double best_wall = 1e300, cpu = 0;

    template <class Run> auto of(Run run) {
        double wall = seconds(CLOCK_MONOTONIC), start = seconds(CLOCK_PROCESS_CPUTIME_ID);
        auto figures = run();
        cpu += seconds(CLOCK_PROCESS_CPUTIME_ID) - start;
        wall = seconds(CLOCK_MONOTONIC) - wall;
        if (wall < best_wall) best_wall = wall;
        return figures;
    }
};

// Runs two in turn for about so many seconds each, so that both meet the same machine, and prints the figures of the
// second, the first one's times, and then the second one's as `report` does.
template <class First, class Second> int report_in_turn(double patience, First first, Second second) {
    double start = seconds(CLOCK_MONOTONIC);
    Times before, own;
    decltype(second()) figures;
    int runs = 0;
    do {
        before.of(first);
        figures = own.of(second);
        runs++;
    } while (seconds(CLOCK_MONOTONIC) - start < 2 * patience);
    print(figures);
    printf("%.9f %.9f ", before.best_wall, before.cpu / runs);
    printf("%.9f %.9f %ld %d\n", own.best_wall, own.cpu / runs, peak_memory(), runs);
    return 0;
}

#endif
