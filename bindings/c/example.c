/* Two overlapping cubes, measured, priced, listed, their corners at one x found in the listing, their cells credited,
 * written as a shot file and read back; then a VOX file of two voxels, read and measured.
 *
 *     cc example.c -I../../include ../../target/staticlib/libcapi.a -o example
 */
#include "heqdanu.h"

#include <inttypes.h>
#include <stdio.h>
#include <stdlib.h>

/* A VOX file: SIZE 2 x 1 x 3, and in XYZI the voxels (1, 0, 2) and (0, 0, 0). */
static const uint8_t vox[] = {
    'V', 'O', 'X', ' ', 150, 0, 0, 0,
    'M', 'A', 'I', 'N', 0, 0, 0, 0, 48, 0, 0, 0,
    'S', 'I', 'Z', 'E', 12, 0, 0, 0, 0, 0, 0, 0, 2, 0, 0, 0, 1, 0, 0, 0, 3, 0, 0, 0,
    'X', 'Y', 'Z', 'I', 12, 0, 0, 0, 0, 0, 0, 0, 2, 0, 0, 0, 1, 0, 2, 1, 0, 0, 0, 255
};

/* The tables of a shop: amounts up to 15 cost more for each unit than larger ones, but edge length costs the same. */
static const heqdanu_band banded[] = {{0, 15, 20}, {16, HEQDANU_TOP_AMOUNT, 5}};
static const heqdanu_band flat[] = {{0, HEQDANU_TOP_AMOUNT, 3}};

/* Ends the program unless the call wrote its answer and accepted. */
static void expect(const char *call, uint8_t written, const uint64_t *answer)
{
    if (!written) {
        printf("%s: the answer slice is too short\n", call);
        exit(1);
    }
    if (answer[0] != HEQDANU_ACCEPTED) {
        printf("%s: refused %" PRIu64 " %" PRIu64 "\n", call, answer[0], answer[1]);
        exit(1);
    }
}

/* The figures of a measured list, each with its name, and what stands between two of them. */
static void print_figures(const uint64_t *answer, const char *between)
{
    printf("volume %" PRIu64 "%sarea %" PRIu64 "%sedge %" PRIu64 "%sinner %" PRIu64 "%scorners %" PRIu64 "\n",
           answer[HEQDANU_VOLUME], between, answer[HEQDANU_AREA], between, answer[HEQDANU_EDGE_LENGTH], between,
           answer[HEQDANU_INNER_LENGTH], between, answer[HEQDANU_CORNERS]);
}

/* A number of a listing's record: 16 bits, least byte first. */
static int number(const uint8_t *bytes)
{
    return bytes[0] + 256 * bytes[1];
}

/* The corners at one x: their places on y and z, and their patterns. */
static void print_corners_at(const uint8_t *listing, size_t nlisting, uint16_t x)
{
    uint64_t answer[HEQDANU_CORNERS_AT_ANSWER];
    expect("corners_at", heqdanu_corners_at(listing, nlisting, x, answer, HEQDANU_CORNERS_AT_ANSWER), answer);
    printf("corners at x = %d:", x);
    for (uint64_t at = answer[HEQDANU_PART_FIRST]; at < answer[HEQDANU_PART_END]; at += HEQDANU_RECORD)
        printf(" (%d, %d) %d", number(listing + at + 2), number(listing + at + 4), listing[at + 6]);
    printf("\n");
}

int main(void)
{
    const uint16_t coords[] = {0, 0, 0, 1, 1, 1};
    const uint16_t field = 8, edge = 2, grid = 2;
    uint64_t answer[HEQDANU_ANSWER];
    uint32_t none[1];

    /* A work slice that is too short tells how many entries are needed. */
    heqdanu_measure(field, edge, grid, coords, 6, none, 0, answer, HEQDANU_ANSWER);
    size_t nwork = answer[1];
    printf("work entries needed %zu\n", nwork);
    uint32_t *work = calloc(nwork, sizeof *work);
    if (work == NULL)
        return 1;

    expect("measure", heqdanu_measure(field, edge, grid, coords, 6, work, nwork, answer, HEQDANU_ANSWER), answer);
    print_figures(answer, "\n");

    /* Each amount as a whole costs what its band says. */
    expect("price",
           heqdanu_price(field, edge, grid, coords, 6, work, nwork, banded, 2, banded, 2, flat, 1, answer,
                         HEQDANU_PRICE_ANSWER),
           answer);
    printf("charges in cents: volume %" PRIu64 ", area %" PRIu64 ", edge %" PRIu64 "\n", answer[HEQDANU_VOLUME_CHARGE],
           answer[HEQDANU_AREA_CHARGE], answer[HEQDANU_EDGE_CHARGE]);

    /* A table that does not start at 0 is refused, and its first band is the faulty one. */
    heqdanu_price(field, edge, grid, coords, 6, work, nwork, banded, 2, banded + 1, 1, flat, 1, answer,
                  HEQDANU_PRICE_ANSWER);
    printf("a table without its first band: %s, band %" PRIu64 "\n",
           answer[HEQDANU_NUMBER] == HEQDANU_INVALID_TABLE ? "refused" : "accepted", answer[HEQDANU_DETAIL]);

    uint8_t listing[20 * HEQDANU_RECORD];
    expect("list",
           heqdanu_list(field, edge, grid, coords, 6, work, nwork, listing, sizeof listing, answer, HEQDANU_ANSWER),
           answer);
    printf("first corner (%d, %d, %d), pattern %d\n", number(listing), number(listing + 2), number(listing + 4),
           listing[6]);
    print_corners_at(listing, sizeof listing, 3);

    /* The cell that both cubes cover is credited to the first. */
    uint32_t credits[2];
    expect("credit",
           heqdanu_credit(field, edge, grid, coords, 6, work, nwork, credits, 2, answer, HEQDANU_CREDIT_ANSWER),
           answer);
    printf("credits %" PRIu32 " %" PRIu32 "\n", credits[0], credits[1]);

    uint8_t file[32];
    expect("write", heqdanu_write(field, edge, grid, coords, 6, file, sizeof file, answer, HEQDANU_WRITE_ANSWER),
           answer);
    size_t length = answer[2];
    printf("shot file of %zu bytes:", length);
    for (size_t i = 0; i < length; i++)
        printf(" %02x", file[i]);
    printf("\n");

    uint16_t back[12];
    expect("read", heqdanu_read(file, length, back, 12, answer, HEQDANU_ANSWER), answer);
    printf("read back: field %" PRIu64 ", edge %" PRIu64 ", grid %" PRIu64 ", %" PRIu64 " shots\n", answer[2],
           answer[3], answer[4], answer[5]);

    /* Each voxel is a shot of edge 1; the index needs two entries more than there are voxels. */
    expect("read_vox", heqdanu_read_vox(vox, sizeof vox, back, 12, answer, HEQDANU_ANSWER), answer);
    uint16_t side = (uint16_t)answer[2];
    printf("VOX file: field %" PRIu64 ", edge %" PRIu64 ", grid %" PRIu64 ", %" PRIu64 " voxels\n", answer[2],
           answer[3], answer[4], answer[5]);
    size_t voxels = answer[5];
    expect("measure", heqdanu_measure(side, 1, 1, back, 3 * voxels, work, voxels + 2, answer, HEQDANU_ANSWER), answer);
    printf("its ");
    print_figures(answer, ", ");
    free(work);
    return 0;
}
