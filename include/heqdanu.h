/* heqdanu.h: cube-shot quotes for C and C++.
 *
 * The calls measure a union of equal axis-aligned cubes ("shots") on a whole-number lattice, price it by the tables of
 * a shop, list its corner points, find the corners at one x in such a listing, credit its cells to the shots that cure
 * them, file the shots in a grid index, name the first of some shots that covers a unit cell, read and write shot
 * files, and read the VOX files of a voxel editor. They live in target/staticlib/libcapi.a, which `scripts/library`
 * proves and writes:
 *
 *     cc program.c -Iinclude target/staticlib/libcapi.a -o program
 *
 * scripts/install puts header and archive, as libheqdanu.a, under a prefix, and heqdanu.pc for pkg-config.
 *
 * A LIST is five arguments: field side, shot edge, grid size, and the shots' lower corners x, y, z one after another
 * in `coords`, `ncoords` numbers in all. It is accepted where
 *
 *     field    is 1 to 1,024
 *     edge     is 1 to field
 *     grid     is 1 to 64 and divides field
 *     ncoords  is a multiple of 3, at most 12,288 (4,096 shots; none is fine, repeats are fine)
 *     each coordinate plus edge is at most field.
 *
 * BUFFERS are lent for the call: a pointer, then the number of elements. A pointer may not be null, even with 0
 * elements; it is aligned for its element; buffers that a call writes overlap no other buffer. Nothing else is asked of
 * the arguments: every value of every number and every content of every buffer has a defined answer. No call
 * allocates memory, keeps a pointer, or touches a place outside the buffers. Calls from several threads are fine as
 * long as they share no buffer that one of them writes.
 *
 * STACK: heqdanu_measure, heqdanu_price and heqdanu_list take less than 577 KiB. 337 KiB of it they take in every
 * field; the rest is 480 bytes for each step of edge, or of field - edge where that is less, since they nest.
 * heqdanu_credit takes what stands there, and every other call less than 82 KiB. A thread that calls them needs a stack
 * of that size: a call overruns a shorter one, and the process ends by a fault. bench/stack measures these sizes; they
 * are not proved.
 *
 * ANSWERS go to `answer`, so many places of 64 bits as the call needs; HEQDANU_ANSWER are enough for every call:
 *
 *     answer[0]   0 if the call accepted, else the number of the refusal (below)
 *     answer[1]   the refusal's detail, 0 if accepted
 *     answer[2..] the call's numbers, all 0 if refused
 *
 * Places of `answer` past these keep their values. A call returns 1 when it wrote the answer. It returns 0 when
 * `answer` is too short; then it changed no place of any buffer. heqdanu_corners_at and heqdanu_covers refuse nothing:
 * the first answers 0 and 0 before its numbers, and the two numbers of the second stand in answer[0] and answer[1].
 */
#ifndef HEQDANU_H
#define HEQDANU_H

#include <stddef.h>
#include <stdint.h>

/* The version that a contract cites, as the command `heqdanu --version` says it. */
#define HEQDANU_VERSION "0.8.0"

#ifdef __cplusplus
extern "C" {
#endif

/* Why a call refuses: the condition, and then the detail that goes with it. F, E and G are field, edge and grid. A call
 * on a list gives the first of its refusals, in this order, whose condition holds. A reader takes its file from front to
 * back, and the first faulty record, chunk or voxel decides; heqdanu_read_vox tests 13, 14, 2, 3, 15 in this order on
 * one chunk, 2 and 3 before any voxel. */
/* the refusals: scripts/refusals --write */
enum {
    HEQDANU_ACCEPTED = 0,
    /* the number of coordinates is not a multiple of 3; 0 */
    HEQDANU_BROKEN_SHOT = 1,
    /* more than 4,096 shots; read: offset of the 4,097th shot's map; read_vox: 44; else 0 */
    HEQDANU_TOO_MANY_SHOTS = 2,
    /* fewer than three places of the coordinate slice are left for the shot that begins; offset of its map */
    /* fewer than three places of the coordinate slice for each voxel; 44 */
    HEQDANU_NO_PLACE = 3,
    /* a map has one of bits 3 to 7 set; offset of that map */
    HEQDANU_UNKNOWN_BIT = 4,
    /* the file ends before or in a field that its map names, or is empty; offset of that map, 0 if empty */
    HEQDANU_CUT_SHORT = 5,
    /* F is not 1 to 1,024; 0 */
    HEQDANU_FIELD_RANGE = 6,
    /* E is not 1 to F; 0 */
    HEQDANU_EDGE_RANGE = 7,
    /* G is not 1 to 64, or does not divide F; 0 */
    HEQDANU_GRID_RANGE = 8,
    /* a coordinate plus E is more than F; number of the first shot with one */
    HEQDANU_OUTSIDE_FIELD = 9,
    /* the work slice has fewer entries than the need; the need, in entries */
    HEQDANU_SHORT_WORK = 10,
    /* the listing buffer has fewer bytes than 7 times the corner count; the corner count */
    HEQDANU_SHORT_LISTING = 11,
    /* the byte buffer has fewer bytes than the shortest file; the bytes of that file */
    HEQDANU_SHORT_FILE = 12,
    /* the mark of a VOX file, with version 150, or a chunk that it must have is missing; offset of the mark or chunk */
    HEQDANU_NOT_VOX = 13,
    /* a chunk is cut short, does not end in the file, or has another size than it must have; offset of the chunk */
    HEQDANU_BROKEN_CHUNK = 14,
    /* a side of SIZE is not 1 to 256, or a voxel is outside SIZE or has colour 0; offset of SIZE or voxel */
    HEQDANU_VOXEL_RANGE = 15,
    /* the credit slice has fewer places than there are shots; the number of shots */
    HEQDANU_SHORT_CREDITS = 16,
    /* a field of a map says what its absence would mean; offset of that map */
    HEQDANU_NEEDLESS_FIELD = 17,
    /* a price table has more than 64 bands, a faulty one, or no top; 64, the faulty band, or the number of bands */
    HEQDANU_INVALID_TABLE = 18
};
/* the refusals end */

/* Places of `answer`, call by call, and how many a call needs. */
enum {
    /* every call but heqdanu_covers: 0 if accepted, else the number of the refusal; and its detail */
    HEQDANU_NUMBER = 0,
    HEQDANU_DETAIL = 1,
    /* heqdanu_measure, heqdanu_list, heqdanu_recount */
    HEQDANU_VOLUME = 2,
    HEQDANU_AREA = 3,
    HEQDANU_EDGE_LENGTH = 4,
    HEQDANU_INNER_LENGTH = 5,
    HEQDANU_CORNERS = 6,
    HEQDANU_MEASURE_ANSWER = 7,
    /* heqdanu_price */
    HEQDANU_VOLUME_CHARGE = 2,
    HEQDANU_AREA_CHARGE = 3,
    HEQDANU_EDGE_CHARGE = 4,
    HEQDANU_PRICE_ANSWER = 5,
    /* heqdanu_corners_at */
    HEQDANU_PART_FIRST = 2,
    HEQDANU_PART_END = 3,
    HEQDANU_CORNERS_AT_ANSWER = 4,
    /* heqdanu_index */
    HEQDANU_INDEX_ANSWER = 2,
    /* heqdanu_credit */
    HEQDANU_CREDIT_ANSWER = 2,
    /* heqdanu_covers */
    HEQDANU_COVERED = 0,
    HEQDANU_SHOT = 1,
    HEQDANU_COVERS_ANSWER = 2,
    /* heqdanu_read, heqdanu_read_vox */
    HEQDANU_READ_FIELD = 2,
    HEQDANU_READ_EDGE = 3,
    HEQDANU_READ_GRID = 4,
    HEQDANU_READ_SHOTS = 5,
    HEQDANU_READ_ANSWER = 6,
    /* heqdanu_write */
    HEQDANU_WRITE_BYTES = 2,
    HEQDANU_WRITE_ANSWER = 3,
    /* enough for every call */
    HEQDANU_ANSWER = 7
};

/* Bytes of a listing's record: x, y, z in 16 bits each, least byte first, then the pattern byte. */
#define HEQDANU_RECORD 7

/* A band of a price table: the amounts from first to last, both included, cost so many cents for each unit. */
typedef struct heqdanu_band {
    uint64_t first, last, cents;
} heqdanu_band;

/* The most bands of a table, the amount at which its last band ends, and the highest rate, in cents for each unit. */
#define HEQDANU_MOST_BANDS 64
#define HEQDANU_TOP_AMOUNT UINT64_C(1099511627776)
#define HEQDANU_HIGHEST_RATE 10000

/* Measures a list.
 *
 * answer: number, detail, volume (covered unit cells), area (unit squares with one of their two cells covered), edge
 * length (outer unit edges: 1 where one of the four cells about it is covered, 2 where two that share only the edge
 * are), inner length (unit edges with three of the four covered, 1 each), corner count (lattice points that carry a
 * weight); HEQDANU_MEASURE_ANSWER places.
 *
 * `work` takes the grid index. It needs grid*grid*grid + 1 entries and one for each pair of a grid cell and a shot that
 * touches it; call with any shorter slice to learn the need from refusal 10.
 *
 * Refusals: 1, 2, 6, 7, 8, 9, 10.
 * After success `work` holds the index in its first entries: grid*grid*grid + 1 starting places of the cells' runs,
 * counted from the first run entry, then the runs, the shots' numbers rising within each; later entries keep their
 * values. After a refusal `work` is as it was.
 */
uint8_t heqdanu_measure(uint16_t field, uint16_t edge, uint16_t grid, const uint16_t *coords, size_t ncoords,
                        uint32_t *work, size_t nwork, uint64_t *answer, size_t nanswer);

/* Measures a list and prices it by the tables of a shop.
 *
 * answer: number, detail, charge of the volume, of the area, of the edge length, in cents (HEQDANU_PRICE_ANSWER
 * places). The inner length has no price.
 *
 * `volume`, `area` and `edges` are the tables, each of at most HEQDANU_MOST_BANDS bands, which run from 0 to exactly
 * HEQDANU_TOP_AMOUNT without gap or overlap: the first starts at 0 and each other one past the end of the band before,
 * none ends before its start, and the last ends at the top. A rate is at most HEQDANU_HIGHEST_RATE cents for each unit.
 * A charge is the whole amount times the rate of the one band that holds the amount.
 *
 * `work` is as for heqdanu_measure.
 *
 * Refusals: 1, 2, 6, 7, 8, 9, 10, 18. 18 tests the table of the volume, then that of the area, then that of the edge
 * length, and does not say which it was. Its detail is 64 for a table of more than 64 bands, whatever they hold; else
 * the first faulty band, counted from 0, as one after the top is; else the number of bands, where the top is missing.
 * After success and after refusal 18 `work` is as after heqdanu_measure. After any other refusal it is as it was.
 */
uint8_t heqdanu_price(uint16_t field, uint16_t edge, uint16_t grid, const uint16_t *coords, size_t ncoords,
                      uint32_t *work, size_t nwork, const heqdanu_band *volume, size_t nvolume,
                      const heqdanu_band *area, size_t narea, const heqdanu_band *edges, size_t nedges,
                      uint64_t *answer, size_t nanswer);

/* Measures a list and lists its corner points.
 *
 * answer: as heqdanu_measure, HEQDANU_MEASURE_ANSWER places.
 *
 * `listing` takes HEQDANU_RECORD bytes a corner, rising by x, then y, then z. Bit 4a+2b+c of the pattern is set if the
 * cell there is covered; a is 1 for the cell above the point on x and 0 for the one below, b and c likewise on y, z.
 *
 * Refusals: 1, 2, 6, 7, 8, 9, 10, 11.
 * After success `work` is as after heqdanu_measure; `listing` holds the records in its first bytes, later bytes keep
 * their values. After refusal 11 `work` holds the finished index and `listing` is as it was. After any other refusal
 * both are as they were.
 */
uint8_t heqdanu_list(uint16_t field, uint16_t edge, uint16_t grid, const uint16_t *coords, size_t ncoords,
                     uint32_t *work, size_t nwork, uint8_t *listing, size_t nlisting, uint64_t *answer,
                     size_t nanswer);

/* Finds the corners at one x: the part of a listing that holds the records with that x, and nothing else.
 *
 * answer: 0, 0, the place of the part's first byte, the place after its last (HEQDANU_CORNERS_AT_ANSWER places). The
 * part is listing[first] up to listing[end - 1], whole records; first and end are 0 where no record has that x.
 *
 * Any bytes are taken for a listing. Records count in sevens from the first byte, and one to six bytes at the end are
 * not looked at. In a listing that heqdanu_list made the records with one x stand together, so the part holds all of
 * them. Where a listing is damaged and x falls somewhere, the part is the first unbroken run of records with that x,
 * whatever stands around it: of five records with x = 5, 5, 2, 2, 5 the part at 2 is from 14 to 28, that at 5 from 0 to
 * 14. A loop over the part by HEQDANU_RECORD meets each record once, in order.
 *
 * Refuses nothing, and writes nothing but the answer.
 */
uint8_t heqdanu_corners_at(const uint8_t *listing, size_t nlisting, uint16_t x, uint64_t *answer, size_t nanswer);

/* Measures a list once more, cell by cell: the slow second opinion for a disputed quote, some seconds in the largest
 * field. Same arguments, answer, refusals and buffers as heqdanu_measure. */
uint8_t heqdanu_recount(uint16_t field, uint16_t edge, uint16_t grid, const uint16_t *coords, size_t ncoords,
                        uint32_t *work, size_t nwork, uint64_t *answer, size_t nanswer);

/* Builds the grid index of a list and measures nothing.
 *
 * answer: number, detail (HEQDANU_INDEX_ANSWER places).
 *
 * Same arguments, refusals and work slice as heqdanu_measure.
 */
uint8_t heqdanu_index(uint16_t field, uint16_t edge, uint16_t grid, const uint16_t *coords, size_t ncoords,
                      uint32_t *work, size_t nwork, uint64_t *answer, size_t nanswer);

/* Credits each unit cell that a list covers to its lowest covering shot: the one that cures it, where the shots are
 * flashed in the list's order.
 *
 * answer: number, detail (HEQDANU_CREDIT_ANSWER places).
 *
 * `credits` takes a number for each shot: of how many cells it is the lowest covering shot. They sum to the volume. All
 * shots of credit 0, as the repeat of an earlier one has, can be left out at once, and the list covers the same cells.
 *
 * Stack: the call nests up to 3*field/grid - 2 deep, at 192 bytes each. That is less than 577 KiB with grid 1 in a
 * field of 1,024, and less than 80 KiB where field/grid is at most 128, as with grid 8 in every field. A thread with a
 * small stack names a larger grid.
 *
 * Refusals: 1, 2, 6, 7, 8, 9, 10, 16.
 * After success `work` is as after heqdanu_measure; `credits` holds the credits in its first places, later places keep
 * their values. After refusal 16 `work` holds the finished index and `credits` is as it was. After any other refusal
 * both are as they were.
 */
uint8_t heqdanu_credit(uint16_t field, uint16_t edge, uint16_t grid, const uint16_t *coords, size_t ncoords,
                       uint32_t *work, size_t nwork, uint32_t *credits, size_t ncredits, uint64_t *answer,
                       size_t nanswer);

/* The cover test: names the first shot of a run that covers the unit cell (i, j, k).
 *
 * answer: 1 and the shot's number, or 0 and 0 where no shot of the run covers the cell (HEQDANU_COVERS_ANSWER places).
 *
 * A shot covers the cell if x <= i < x + edge, and likewise on y and z; no sum wraps. The run is `nrun` numbers of
 * shots, any numbers: one past the list's shots covers nothing, and one or two coordinates behind the last whole shot
 * are no shot. They are asked one after another from the front, up to the first shot that covers the cell.
 *
 * Refuses nothing. In a work slice that holds a list's index, the run of grid cell g starts at
 * work[grid*grid*grid + 1 + work[g]] and has work[g + 1] - work[g] entries. With s = field/grid, a unit cell of the
 * field lies in grid cell g = ((i/s)*grid + j/s)*grid + k/s; the answer for that run is 1 if the list covers it, and
 * then the list's lowest covering shot.
 */
uint8_t heqdanu_covers(uint16_t edge, const uint16_t *coords, size_t ncoords, const uint32_t *run, size_t nrun,
                       uint16_t i, uint16_t j, uint16_t k, uint64_t *answer, size_t nanswer);

/* Reads a shot file.
 *
 * answer: number, detail, field, edge, grid, number of shots (HEQDANU_READ_ANSWER places). What the file's header leaves
 * out is field 1,024, edge 16, grid 16; with that grid the work slice needs 4,097 entries and the pairs. The ranges of
 * these numbers and of the coordinates are not tested; the calls that take the list do that.
 *
 * No field of a record may say what its absence would mean. Field 1,024, edge 16 and grid 16 in the header, and in a
 * shot a coordinate that is that of the shot before, or 0 in the first, are refused by 17. So two files with the same
 * settings and shots are the same bytes, and heqdanu_write makes them again where it accepts the list. A file from an
 * older writer that has such a field is not mended here: its source must make it anew.
 *
 * `coords` takes three numbers a shot; 12,288 places are enough for every file.
 *
 * Refusals: 2, 3, 4, 5, 17, in this order on one record.
 * After success `coords` holds the shots in its first places, later places keep their values. After a refusal `coords`
 * is as it was.
 */
uint8_t heqdanu_read(const uint8_t *bytes, size_t nbytes, uint16_t *coords, size_t ncoords, uint64_t *answer,
                     size_t nanswer);

/* Reads a VOX file, the format of the voxel editor MagicaVoxel: each voxel is a shot of edge 1, in file order.
 *
 * What is read is the first model of a file of version 150, of at most 4,096 voxels: further models are skipped, and so
 * is the scene that places, turns and hides models, so the model is read as it was drawn, also from a hidden layer. A
 * newer editor's file has another version, and refusal 13 with detail 0 then says no more than that.
 *
 * answer: number, detail, field (the largest side of SIZE), edge 1, grid 1, number of voxels (HEQDANU_READ_ANSWER
 * places). Every such list is accepted by the calls that take one, and its index needs the number of voxels and 2 more
 * work entries.
 *
 * The file is the mark `VOX ` and version 150, then the chunk MAIN without content, whose children are the rest of the
 * file: SIZE, XYZI, and any others, which are skipped with their children. A chunk is a name of four bytes, the sizes
 * of its content and of its children, and then both. In SIZE are the sides on x, y and z, each 1 to 256; in XYZI the
 * number of voxels, and then for each voxel its three coordinates, each below the side of its axis, and its colour,
 * which is not 0, a byte for each. These two have no children. Numbers have 32 bits, least byte first.
 *
 * `coords` takes three numbers a voxel; 12,288 places are enough for every file.
 *
 * Refusals: 13, 14, 2, 3, 15, in this order on one chunk. 13 is for a file that does not begin with the mark and the
 * version (detail 0), or has no byte or another name where MAIN, SIZE or XYZI must be; 1 to 3 bytes there are 14. 2 and
 * 3 are for the whole of XYZI and have its offset. A chunk after XYZI is looked at after all voxels.
 * After success `coords` holds the voxels in its first places, later places keep their values. After a refusal `coords`
 * is as it was.
 */
uint8_t heqdanu_read_vox(const uint8_t *bytes, size_t nbytes, uint16_t *coords, size_t ncoords, uint64_t *answer,
                         size_t nanswer);

/* Writes the shortest shot file of a list, which is the only one of that list that heqdanu_read takes.
 *
 * answer: number, detail, length of the file in bytes (HEQDANU_WRITE_ANSWER places). Field 1,024, edge 16 and grid 16
 * are left out of the header, and of a shot each coordinate that is that of the shot before, or 0 in the first.
 *
 * `bytes` takes the file; 28,679 bytes are enough for every list.
 *
 * Refusals: 1, 2, 6, 7, 8, 9, 12.
 * After success `bytes` holds the file in its first bytes, later bytes keep their values. After a refusal `bytes` is as
 * it was.
 */
uint8_t heqdanu_write(uint16_t field, uint16_t edge, uint16_t grid, const uint16_t *coords, size_t ncoords,
                      uint8_t *bytes, size_t nbytes, uint64_t *answer, size_t nanswer);

#ifdef __cplusplus
}
#endif

#endif
