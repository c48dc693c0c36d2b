/* Asks the cover test about one unit cell of a shot file: the run of the grid cell that holds it, and the shot named.
 *
 *     cc -g covers.c -I../../include ../../target/staticlib/libcapi.a -o covers
 *     ./covers 2 1 2 < ../../examples/overlap.shots
 *
 * docs/DEBUGGING.md stops in the test with a debugger.
 */
#include "heqdanu.h"

#include <inttypes.h>
#include <stdio.h>
#include <stdlib.h>

static uint8_t file[28680];
static uint16_t coords[12288];

/* Ends the program unless the call gave this number: 0 if accepted, or a refusal's. */
static void expect(uint64_t number, const uint64_t *answer)
{
    if (answer[HEQDANU_NUMBER] != number) {
        printf("refused %" PRIu64 " %" PRIu64 "\n", answer[HEQDANU_NUMBER], answer[HEQDANU_DETAIL]);
        exit(1);
    }
}

static int usage(void)
{
    fprintf(stderr, "usage: covers I J K < FILE, with a cell of the file's field\n");
    return 2;
}

/* A place on an axis: a word of decimal digits, below 65,536. Gives 0 for any other word. */
static int take_place(const char *word, uint16_t *place)
{
    uint32_t number = 0;

    if (*word == '\0')
        return 0;
    for (; *word != '\0'; word++) {
        if (*word < '0' || *word > '9')
            return 0;
        number = 10 * number + (uint32_t)(*word - '0');
        if (number > UINT16_MAX)
            return 0;
    }
    *place = (uint16_t)number;
    return 1;
}

int main(int argc, char **argv)
{
    uint64_t answer[HEQDANU_ANSWER];
    uint16_t cell[3];

    if (argc != 4)
        return usage();
    for (int axis = 0; axis < 3; axis++)
        if (!take_place(argv[axis + 1], &cell[axis]))
            return usage();
    heqdanu_read(file, fread(file, 1, sizeof file, stdin), coords, 12288, answer, HEQDANU_ANSWER);
    expect(HEQDANU_ACCEPTED, answer);
    uint16_t field = (uint16_t)answer[HEQDANU_READ_FIELD];
    uint16_t edge = (uint16_t)answer[HEQDANU_READ_EDGE];
    uint16_t grid = (uint16_t)answer[HEQDANU_READ_GRID];
    size_t ncoords = 3 * (size_t)answer[HEQDANU_READ_SHOTS];

    /* A work slice that is too short tells how many entries are needed. */
    uint32_t none[1];
    heqdanu_index(field, edge, grid, coords, ncoords, none, 0, answer, HEQDANU_ANSWER);
    expect(HEQDANU_SHORT_WORK, answer);
    size_t nwork = (size_t)answer[HEQDANU_DETAIL];
    uint32_t *work = calloc(nwork, sizeof *work);
    if (work == NULL)
        return 2;
    heqdanu_index(field, edge, grid, coords, ncoords, work, nwork, answer, HEQDANU_ANSWER);
    expect(HEQDANU_ACCEPTED, answer);

    if (cell[0] >= field || cell[1] >= field || cell[2] >= field)
        return usage();

    /* The runs stand behind the starting places; a run ends where the next one starts. */
    size_t width = field / grid;
    size_t box = (cell[0] / width * grid + cell[1] / width) * grid + cell[2] / width;
    const uint32_t *run = work + (size_t)grid * grid * grid + 1 + work[box];
    size_t nrun = work[box + 1] - work[box];
    printf("run of grid cell %zu:", box);
    for (size_t place = 0; place < nrun; place++)
        printf(" %" PRIu32, run[place]);
    printf("\n");
    fflush(stdout);

    heqdanu_covers(edge, coords, ncoords, run, nrun, cell[0], cell[1], cell[2], answer, HEQDANU_ANSWER);
    printf("cell (%u, %u, %u): ", cell[0], cell[1], cell[2]);
    if (answer[HEQDANU_COVERED])
        printf("covered by shot %" PRIu64 "\n", answer[HEQDANU_SHOT]);
    else
        printf("not covered\n");
    free(work);
    return 0;
}
