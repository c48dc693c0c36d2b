// How deep the stack gets in each call of heqdanu.h that takes a work slice: bench/stack builds and runs this.
//
// A call runs on a stack of its own that was painted before; the deepest word that is no longer paint tells its depth,
// less that of a call that does nothing. What the last function reserves there and leaves untouched is not seen.
#include "../include/heqdanu.h"
#include "common.hpp"

#include <algorithm>
#include <functional>
#include <random>
#include <string>
#include <sys/mman.h>
#include <ucontext.h>

const size_t WORDS = size_t(1) << 23;
const uint64_t PAINT = 0x5ac3964be17d280f;

static uint64_t *stack;
static ucontext_t here, there;
static std::function<void()> *task;

static void enter() { (*task)(); }

// The bytes of stack that a task uses, with those of getting there.
static size_t used(std::function<void()> run) {
    task = &run;
    getcontext(&there);
    there.uc_stack.ss_sp = stack;
    there.uc_stack.ss_size = WORDS * sizeof(uint64_t);
    there.uc_link = &here;
    makecontext(&there, enter, 0);
    swapcontext(&here, &there);
    uint64_t *deepest = std::find_if(stack, stack + WORDS, [](uint64_t word) { return word != PAINT; });
    if (deepest == stack) {
        fprintf(stderr, "stack: a call needs more than %zu bytes\n", WORDS * sizeof(uint64_t));
        exit(1);
    }
    std::fill(deepest, stack + WORDS, PAINT);
    return size_t(stack + WORDS - deepest) * sizeof(uint64_t);
}

static List spread(uint16_t field, uint16_t edge, uint16_t grid, size_t shots) {
    std::mt19937 numbers(1);
    List list;
    list.field = field, list.edge = edge, list.grid = grid;
    for (size_t place = 0; place < 3 * shots; place++) list.coords.push_back(uint16_t(numbers() % (field - edge + 1u)));
    return list;
}

// Cubes along the diagonal, each one step on.
static List nested(uint16_t edge, uint16_t grid) {
    List list;
    list.field = 1024, list.edge = edge, list.grid = grid;
    for (unsigned shot = 0; shot < 4096; shot++)
        list.coords.insert(list.coords.end(), 3, uint16_t(shot % (1025u - edge)));
    return list;
}

// Cells along three edges of the field that follow one another: each takes one layer off what is left of the field when
// the layers before it are cut off, and no list of this field can take off more. `order` has the axes in the order of
// the edges; a bit of `falling` turns its axis round.
static List layers(uint16_t field, const int *order, int falling) {
    List list;
    list.field = field, list.edge = 1, list.grid = 1;
    uint16_t cell[3] = {0, 0, 0};
    auto add = [&] {
        for (int axis = 0; axis < 3; axis++)
            list.coords.push_back(falling >> axis & 1 ? uint16_t(field - 1 - cell[axis]) : cell[axis]);
    };
    add();
    for (int turn = 0; turn < 3; turn++)
        while (cell[order[turn]] + 1 < field) {
            cell[order[turn]]++;
            add();
        }
    return list;
}

// A cube, and cubes that reach through the plane where it ends, or where it `begins`: each hides one row more of its
// face, and then one place more of the row that is left. So the face is carved by calls within calls, and no list nests
// more in a field of this side. `turned` exchanges y and z; a bit of `falling` turns its axis round.
static List rows(uint16_t field, uint16_t grid, bool begins, bool turned, int falling) {
    List list;
    uint16_t edge = field / 2;
    list.field = field, list.edge = edge, list.grid = grid;
    auto add = [&](uint16_t x, uint16_t y, uint16_t z) {
        if (falling & 1) y = uint16_t(edge - y);
        if (falling & 2) z = uint16_t(edge - z);
        list.coords.insert(list.coords.end(), {x, turned ? z : y, turned ? y : z});
    };
    if (begins) {
        for (uint16_t z = 1; z < edge; z++) add(0, edge, uint16_t(edge - z));
        for (uint16_t y = 1; y < edge; y++) add(0, uint16_t(edge - y), edge);
        add(1, edge, edge);
    } else {
        add(0, edge, edge);
        for (uint16_t y = 1; y < edge; y++) add(1, y, edge);
        for (uint16_t z = 1; z < edge; z++) add(1, edge, z);
    }
    return list;
}

enum Call { INDEX, MEASURE, LIST, RECOUNT, CREDIT, PRICE, CALLS };

// A table of as many bands as are allowed.
static std::vector<heqdanu_band> longest_table() {
    std::vector<heqdanu_band> table;
    for (uint64_t band = 0; band < 64; band++) table.push_back({band, band, band});
    table.back().last = uint64_t(1) << 40;
    return table;
}

// The bytes of stack of one call on a list.
static size_t depth(const List &list, Call call) {
    static std::vector<uint8_t> listing(HEQDANU_RECORD << 20);
    static const std::vector<heqdanu_band> volume = longest_table(), area = volume, edges = volume;
    uint64_t answer[HEQDANU_ANSWER];
    const uint16_t *coords = list.coords.data();
    size_t ncoords = list.coords.size();
    std::vector<uint32_t> work(1), credits(list.shots());
    auto measuring = call == INDEX ? heqdanu_index : call == RECOUNT ? heqdanu_recount : heqdanu_measure;
    auto run = [&] {
        if (call == LIST)
            heqdanu_list(list.field, list.edge, list.grid, coords, ncoords, work.data(), work.size(), listing.data(),
                         listing.size(), answer, HEQDANU_ANSWER);
        else if (call == CREDIT)
            heqdanu_credit(list.field, list.edge, list.grid, coords, ncoords, work.data(), work.size(), credits.data(),
                           credits.size(), answer, HEQDANU_ANSWER);
        else if (call == PRICE)
            heqdanu_price(list.field, list.edge, list.grid, coords, ncoords, work.data(), work.size(), volume.data(),
                          volume.size(), area.data(), area.size(), edges.data(), edges.size(), answer, HEQDANU_ANSWER);
        else
            measuring(list.field, list.edge, list.grid, coords, ncoords, work.data(), work.size(), answer,
                      HEQDANU_ANSWER);
    };
    run();
    work.resize(answer[HEQDANU_DETAIL]);
    size_t bytes = used(run) - used([] {});
    if (answer[HEQDANU_NUMBER] != HEQDANU_ACCEPTED) {
        fprintf(stderr, "stack: refused %llu\n", (unsigned long long)answer[HEQDANU_NUMBER]);
        exit(1);
    }
    return bytes;
}

// One line of the table: the most that each call takes on some lists. The recount is left out where it takes long.
static void line(const char *name, const std::vector<List> &lists) {
    printf("| %-46s |", name);
    for (int call = 0; call < CALLS; call++) {
        size_t most = 0;
        for (const List &list : lists)
            if (call != RECOUNT || list.field <= 128) most = std::max(most, depth(list, Call(call)));
        if (most > 0)
            printf(" %8zu |", most);
        else
            printf("          |");
        fflush(stdout);
    }
    printf("\n");
}

int main() {
    void *memory = mmap(nullptr, WORDS * sizeof(uint64_t), PROT_READ | PROT_WRITE, MAP_PRIVATE | MAP_ANONYMOUS, -1, 0);
    if (memory == MAP_FAILED) return 2;
    stack = static_cast<uint64_t *>(memory);
    std::fill(stack, stack + WORDS, PAINT);
    printf("| %-46s |", "bytes of stack");
    for (const char *call : {"index", "measure", "list", "recount", "credit", "price"}) printf(" %8s |", call);
    printf("\n| %s |", std::string(46, '-').c_str());
    for (int call = 0; call < CALLS; call++) printf(" -------- |");
    printf("\n");
    line("random, E = 16, G = 8", {spread(1024, 16, 8, 4096)});
    line("random, E = 16, G = 64", {spread(1024, 16, 64, 4096)});
    line("1,500 random, F = 128, E = 9, G = 8", {spread(128, 9, 8, 1500)});
    line("nested, E = 384, G = 8", {nested(384, 8)});
    line("nested, E = 384, G = 1", {nested(384, 1)});
    line("nested, E = 16, G = 1", {nested(16, 1)});
    for (uint16_t field : {128, 512, 1024}) {
        std::vector<List> lists;
        int order[3] = {0, 1, 2};
        do
            for (int falling = 0; falling < 8; falling++) lists.push_back(layers(field, order, falling));
        while (std::next_permutation(order, order + 3));
        char name[64];
        snprintf(name, sizeof name, "a layer a shot, F = %d, %d shots, G = 1", field, 3 * field - 2);
        line(name, lists);
    }
    for (uint16_t field : {124, 128, 512, 1024}) {
        std::vector<List> lists;
        for (int way = 0; way < 16; way++)
            lists.push_back(rows(field, field == 124 ? 4 : 8, way & 1, way & 2, way >> 2));
        char name[64];
        snprintf(name, sizeof name, "a row a shot, F = %d, E = %d, G = %d", field, field / 2, field == 124 ? 4 : 8);
        line(name, lists);
    }
}
