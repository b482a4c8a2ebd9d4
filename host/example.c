/* Asks how many components a block can have, then labels and joins a volume of 3×2×1 voxels from two blocks, prints a layer of the first one, looks up cells
   one by one and together, and reads the strains on one of its faces, through tugrelis.h, in plain C.
   Every answer is checked; the first that is not as it must be is printed, and the exit status is then 1.

       1 2 2      cut at x = 1 into    1 2    and    2 2
       3 4 4                           3 4           4 4

   The two blocks share the voxels in the middle. host/run compiles and runs this and compares what it prints. */
#include <inttypes.h>
#include <stdio.h>
#include <string.h>

#include "tugrelis.h"

enum { BLOCKS = 2, CELLS = 9, FACES = 5, CURVES = 1, RECORD = 64, ASKED = 4 };

/* A job with its tables. The volume has no point cell, so its tables of points have no entries: each is the empty slice, NULL and 0. */
struct job {
    uint32_t numbers[13];
    uint32_t ticks[6 * BLOCKS], blocks[5 * BLOCKS];
    uint32_t face_links[FACES], curve_links[CURVES];
    uint64_t face_keys[FACES], curve_keys[CURVES];
    uint32_t face_rows[2 * FACES], curve_rows[4 * CURVES];
    uint32_t face_numbers[FACES], curve_numbers[CURVES];
    uint64_t face_firsts[FACES], curve_firsts[CURVES];
    uint32_t face_listed[2 * FACES], curve_listed[4 * CURVES];
    uint32_t came[BLOCKS];
    double face_sums[2 * FACES];
    uint64_t face_counts[6 * FACES];
};

static const uint32_t cuts_x[] = {0, 1, 2}, cuts_y[] = {0, 1}, cuts_z[] = {0};

/* Cells that are looked up together: one twice, and the second one is in both blocks. */
static const uint32_t asked_x[ASKED] = {4, 2, 1, 4}, asked_y[ASKED] = {1, 1, 0, 1}, asked_z[ASKED] = {0};

/* An array with its length, as the functions take a slice. */
#define SLICE(array) (array), sizeof(array) / sizeof((array)[0])
#define CUTS SLICE(cuts_x), SLICE(cuts_y), SLICE(cuts_z)
#define NONE NULL, 0

static int wrong;

static void expect(const char *what, uint32_t answer, uint32_t right) {
    if (answer != right && !wrong) {
        printf("%s: %" PRIu32 ", it must be %" PRIu32 "\n", what, answer, right);
        wrong = 1;
    }
}

/* The most components that a block of 2×2×1 voxels can have. */
static void most(void) {
    uint32_t counts[3] = {7, 7, 7};
    expect("most of an extent 0", tugrelis_most_components(2, 2, 0, counts), TUGRELIS_OFF_SIZE);
    expect("numbers of a refused call", counts[0] == 7 && counts[1] == 7 && counts[2] == 7, 1);
    expect("most", tugrelis_most_components(2, 2, 1, counts), 0);
    printf("a block of 2 2 1: at most faces %" PRIu32 " curves %" PRIu32 " points %" PRIu32 "\n", counts[0], counts[1], counts[2]);
}

static uint32_t open_job(struct job *j) {
    return tugrelis_open(
        j->numbers, 3, 2, 1, FACES, CURVES, 0, CUTS, SLICE(j->ticks), SLICE(j->blocks), SLICE(j->face_links), SLICE(j->curve_links), SLICE(j->face_keys), SLICE(j->curve_keys), NONE,
        SLICE(j->face_rows), SLICE(j->curve_rows), NONE, SLICE(j->face_numbers), SLICE(j->curve_numbers), NONE, SLICE(j->face_firsts), SLICE(j->curve_firsts), NONE, SLICE(j->face_listed),
        SLICE(j->curve_listed), NONE, SLICE(j->came), SLICE(j->face_sums), SLICE(j->face_counts));
}

static uint32_t enrol(struct job *j, uint32_t block, const uint32_t map[CELLS]) {
    return tugrelis_enrol(
        j->numbers, CUTS, SLICE(j->ticks), SLICE(j->blocks), SLICE(j->face_links), SLICE(j->curve_links), SLICE(j->face_keys), SLICE(j->curve_keys), SLICE(j->face_rows), SLICE(j->curve_rows),
        block, map, CELLS);
}

static uint32_t seam(struct job *j, const uint32_t lower[CELLS], const uint32_t upper[CELLS]) {
    return tugrelis_seam(j->numbers, CUTS, SLICE(j->ticks), SLICE(j->blocks), SLICE(j->face_links), SLICE(j->curve_links), 0, 1, lower, CELLS, upper, CELLS);
}

static uint32_t crossing(struct job *j, uint32_t block, const uint32_t map[CELLS]) {
    return tugrelis_crossing(
        j->numbers, CUTS, SLICE(j->ticks), SLICE(j->blocks), SLICE(j->face_links), SLICE(j->curve_links), SLICE(j->face_keys), SLICE(j->curve_keys), SLICE(j->face_rows), SLICE(j->curve_rows),
        SLICE(j->face_numbers), SLICE(j->curve_numbers), SLICE(j->face_firsts), SLICE(j->curve_firsts), SLICE(j->face_listed), SLICE(j->curve_listed), block, map, CELLS);
}

static uint32_t point(struct job *j, uint32_t block, const uint32_t map[CELLS]) {
    return tugrelis_point(j->numbers, CUTS, SLICE(j->ticks), SLICE(j->blocks), SLICE(j->curve_numbers), NONE, NONE, NONE, NONE, NONE, block, map, CELLS);
}

static uint32_t lookup(const struct job *j, uint32_t block, const uint32_t map[CELLS], uint32_t x, uint32_t y, uint32_t *number) {
    return tugrelis_lookup(j->numbers, CUTS, SLICE(j->ticks), SLICE(j->blocks), SLICE(j->face_numbers), SLICE(j->curve_numbers), NONE, block, map, CELLS, x, y, 0, number);
}

static uint32_t request(const struct job *j, const uint32_t xs[ASKED], const uint32_t ys[ASKED], uint32_t needed[ASKED], uint32_t *count) {
    return tugrelis_request_blocks(j->numbers, CUTS, xs, ASKED, ys, ASKED, SLICE(asked_z), needed, ASKED, count);
}

static uint32_t fill(const struct job *j, uint32_t block, const uint32_t map[CELLS], uint32_t answers[ASKED]) {
    return tugrelis_fill_cells(
        j->numbers, CUTS, SLICE(j->ticks), SLICE(j->blocks), SLICE(j->face_numbers), SLICE(j->curve_numbers), NONE, SLICE(asked_x), SLICE(asked_y), SLICE(asked_z), block, map, CELLS,
        answers, ASKED);
}

static uint32_t strain(struct job *j, uint32_t block, const uint32_t map[CELLS], const double values[4], const uint8_t kinds[4]) {
    return tugrelis_strain(
        j->numbers, CUTS, SLICE(j->blocks), SLICE(j->face_numbers), SLICE(j->came), SLICE(j->face_sums), SLICE(j->face_counts), block, map, CELLS, values, 4, kinds, 4);
}

static uint32_t total(const struct job *j, uint32_t number, double sums[2], uint64_t counts[6]) {
    return tugrelis_total(j->numbers, CUTS, SLICE(j->came), SLICE(j->face_sums), SLICE(j->face_counts), number, sums, counts);
}

/* Brings the readings of both blocks, and prints the totals of face 3, between the codes 2 and 4. Its first cell lies in both blocks and counts with block 0;
   what block 1 says of the shared voxels is tested and goes nowhere. */
static void strains(struct job *j, uint32_t maps[BLOCKS][CELLS]) {
    static const double values[BLOCKS][4] = {{1, 2, 4, 8}, {100, 0.5, 100, -0.25}}, half[4] = {1, 2, 1.0 / 2048, 8};
    static const uint8_t kinds[BLOCKS][4] = {{0, 0, 1, 0}, {0, 0, 2, 0}};
    double sums[2] = {7, 7};
    uint64_t counts[6] = {0};
    expect("readings", strain(j, 1, maps[1], values[1], kinds[1]), 0);
    expect("readings again", strain(j, 1, maps[1], values[1], kinds[1]), TUGRELIS_DONE_ALREADY);
    expect("a total before all blocks have come", total(j, 3, sums, counts), TUGRELIS_WRONG_STAGE);
    expect("half a 1,024th", strain(j, 0, maps[0], half, kinds[0]), TUGRELIS_BAD_READING);
    expect("readings", strain(j, 0, maps[0], values[0], kinds[0]), 0);
    expect("a total", total(j, 3, sums, counts), 0);
    expect("sums of face 3", sums[0] == 2.5 && sums[1] == 7.75, 1);
    printf("face 3: lower side %g with %" PRIu64 " strains %" PRIu64 " clipped %" PRIu64 " missing,", sums[0], counts[0], counts[1], counts[2]);
    printf(" higher side %g with %" PRIu64 " strains %" PRIu64 " clipped %" PRIu64 " missing\n", sums[1], counts[3], counts[4], counts[5]);
}

/* Labels a block, takes its map through a record, and prints it. */
static void label(uint32_t block, const uint32_t codes[4], uint32_t map[CELLS], const uint32_t right[CELLS]) {
    uint32_t work[CELLS], counts[3], back[CELLS], k;
    uint16_t fields[6];
    uint8_t record[RECORD];
    size_t size = 0;
    expect("label", tugrelis_label(codes, 4, 2, 2, 1, map, CELLS, work, CELLS, counts), 0);
    expect("map", memcmp(map, right, sizeof back) != 0, 0);
    expect("write", tugrelis_write_record(2, 2, 1, (uint16_t)block, 0, 0, map, CELLS, SLICE(record), &size), 0);
    expect("read", tugrelis_read_record(record, size, SLICE(back), fields), 0);
    expect("map of the record", memcmp(back, map, sizeof back) != 0, 0);
    expect("extents and origin", fields[0] == 2 && fields[1] == 2 && fields[2] == 1 && fields[3] == block && fields[4] == 0 && fields[5] == 0, 1);
    printf("block %" PRIu32 ": faces %" PRIu32 " curves %" PRIu32 " points %" PRIu32 ", a record of %zu bytes, map", block, counts[0], counts[1], counts[2], size);
    for (k = 0; k < CELLS; k++) {
        printf(" %" PRIu32, map[k]);
    }
    printf("\n");
}

/* Prints the one layer of a block's cells: a page of three lines, of which the first three cells are shown; the other places are blank. */
static void layer(const uint32_t map[CELLS]) {
    uint8_t page[3 * 81] = {0};
    uint32_t y;
    expect("a layer that is not there", tugrelis_print_layer(2, 2, 1, 1, map, CELLS, SLICE(page)), TUGRELIS_NO_SUCH_PLACE);
    expect("the page of a refused call", page[0], 0);
    expect("print", tugrelis_print_layer(2, 2, 1, 0, map, CELLS, SLICE(page)), 0);
    for (y = 0; y < 3; y++) {
        expect("the last column", page[81 * y + 79], ' ');
        expect("the line end", page[81 * y + 80], '\n');
        printf("%.15s\n", (const char *)page + 81 * y);
    }
}

/* Looks up every cell of the block, and compares it with the uncut volume. */
static void look(const struct job *j, uint32_t block, const uint32_t map[CELLS], const uint32_t right[3][5]) {
    uint32_t x, y, number = 0;
    printf("block %" PRIu32 " in the volume:", block);
    for (y = 0; y < 3; y++) {
        for (x = 2 * block; x < 2 * block + 3; x++) {
            expect("lookup", lookup(j, block, map, x, y, &number), 0);
            expect("the looked-up number", number, right[y][x]);
            printf(" %" PRIu32, number);
        }
    }
    printf("\n");
}

/* Looks up the cells together: asks which blocks are needed, and has each of them fill in its answers. */
static void together(const struct job *j, uint32_t maps[BLOCKS][CELLS]) {
    static const uint32_t none[ASKED] = {7, 7, 7, 7}, outside[ASKED] = {0, 0, 3, 0};
    static const uint32_t blocks[ASKED] = {0, 1, 7, 7}, first[ASKED] = {3, 7, 7, 3}, right[ASKED] = {3, 3, 1, 3};
    uint32_t needed[ASKED] = {7, 7, 7, 7}, answers[ASKED] = {7, 7, 7, 7}, count = 7, i;
    expect("a cell outside the volume", request(j, asked_x, outside, needed, &count), TUGRELIS_NO_SUCH_PLACE);
    expect("blocks or count of a refused request", memcmp(needed, none, sizeof none) != 0 || count != 7, 0);
    expect("request", request(j, asked_x, asked_y, needed, &count), 0);
    expect("the needed blocks", count == 2 && memcmp(needed, blocks, sizeof blocks) == 0, 1);
    expect("a block that is not needed", fill(j, 2, maps[1], answers), TUGRELIS_NO_SUCH_PLACE);
    expect("answers of a refused filling", memcmp(answers, none, sizeof none) != 0, 0);
    expect("fill", fill(j, 1, maps[1], answers), 0);
    expect("the answers of block 1", memcmp(answers, first, sizeof first) != 0, 0);
    expect("fill", fill(j, 0, maps[0], answers), 0);
    expect("all answers", memcmp(answers, right, sizeof right) != 0, 0);
    printf("together, from blocks %" PRIu32 " and %" PRIu32 ":", needed[0], needed[1]);
    for (i = 0; i < ASKED; i++) {
        printf(" %" PRIu32, answers[i]);
    }
    printf("\n");
}

/* Opens the job and takes it through enrolments, seam and crossings. */
static void join(struct job *j, uint32_t maps[BLOCKS][CELLS]) {
    uint32_t b;
    expect("open", open_job(j), 0);
    for (b = 0; b < BLOCKS; b++) {
        expect("enrol", enrol(j, b, maps[b]), 0);
    }
    expect("seam", seam(j, maps[0], maps[1]), 0);
    for (b = 0; b < BLOCKS; b++) {
        expect("crossing", crossing(j, b, maps[b]), 0);
    }
}

int main(void) {
    static const uint32_t codes[2][4] = {{1, 2, 3, 4}, {2, 2, 4, 4}};
    static const uint32_t maps_right[2][CELLS] = {{1, 1, 2, 2, 1, 3, 3, 4, 4}, {2, 0, 2, 1, 0, 1, 4, 0, 4}};
    static const uint32_t volume[3][5] = {{1, 1, 2, 0, 2}, {2, 1, 3, 0, 3}, {3, 4, 4, 0, 4}};
    static const uint32_t row_right[6] = {1, 2, 3, 4, 0, 0};
    static struct job job, before;
    uint32_t maps[2][CELLS], row[6] = {0}, number = 7, b, refusal;

    most();
    for (b = 0; b < BLOCKS; b++) {
        label(b, codes[b], maps[b], maps_right[b]);
    }
    printf("block 0, layer 0:\n");
    layer(maps[0]);
    join(&job, maps);

    /* a refused call answers why, and changes nothing */
    before = job;
    refusal = lookup(&job, 0, maps[0], 1, 0, &number);
    expect("lookup before the job is closed", refusal, TUGRELIS_WRONG_STAGE);
    expect("job or number changed", memcmp(&before, &job, sizeof job) != 0 || number != 7, 0);
    printf("refused with %" PRIu32 " before the job is closed\n", refusal);

    for (b = 0; b < BLOCKS; b++) {
        expect("point", point(&job, b, maps[b]), 0);
    }
    expect("stage", job.numbers[0], 4);
    printf("closed: faces %" PRIu32 " curves %" PRIu32 " points %" PRIu32 "\n", job.numbers[10], job.numbers[11], job.numbers[12]);
    for (b = 0; b < BLOCKS; b++) {
        look(&job, b, maps[b], volume);
    }
    together(&job, maps);
    expect("row", tugrelis_curve_row(job.numbers, 1, SLICE(job.face_listed), SLICE(job.curve_listed), NONE, row), 0);
    expect("the row of curve 1", memcmp(row, row_right, sizeof row) != 0, 0);
    expect("first position of curve 1", job.curve_firsts[0] == 6, 1);
    printf("curve 1 at 6 row %" PRIu32 " %" PRIu32 " %" PRIu32 " %" PRIu32 "\n", row[0], row[1], row[2], row[3]);
    strains(&job, maps);
    return wrong;
}
