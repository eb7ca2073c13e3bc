/* rooms: a small field through the functions of Gussetraft, and its listing as document 01 has it.
 *
 * Two rooms with a door between them; over a part of the left one lies a gallery, a second layer that leads nowhere else. */
#include "gussetraft.h"
#include <stdio.h>

/* how many layers each cell has */
static const char *const plan[] = {
    "1111111110111111111",
    "1111111110111111111",
    "1222111110111111111",
    "1222111110111111111",
    "1222111111111111111",
    "1222111110111111111",
    "1111111110111111111",
    "1111111110111111111",
    "1111111110111111111",
};
enum { W = 19, H = 9, CELLS = W * H, SPANS = 2 * CELLS };

static uint32_t index_of[CELLS];
static uint8_t count[CELLS], area[SPANS], con[4 * SPANS];
static uint16_t raw[SPANS], blurred[SPANS], ids[SPANS], workspace[GUSSETRAFT_WORKSPACE_LEN(SPANS)];

static int layers(int x, int z) { return x < 0 || x >= W || z < 0 || z >= H ? 0 : plan[z][x] - '0'; }

/* Fills the lists, each layer connected to the same layer of the cells beside it, and gives the number of spans. */
static size_t field(void) {
    static const int dx[4] = {-1, 0, 1, 0}, dz[4] = {0, 1, 0, -1};
    size_t n = 0;
    for (int z = 0; z < H; z++) {
        for (int x = 0; x < W; x++) {
            index_of[x + z * W] = (uint32_t)n;
            count[x + z * W] = (uint8_t)layers(x, z);
            for (int k = 0; k < layers(x, z); k++, n++) {
                area[n] = 1;
                for (int d = 0; d < 4; d++) {
                    con[4 * n + d] = k < layers(x + dx[d], z + dz[d]) ? (uint8_t)k : GUSSETRAFT_NO_CONNECTION;
                }
            }
        }
    }
    return n;
}

/* A row a line; the layers of a cell joined by '/', an empty cell as '-'. */
static void print_ids(void) {
    for (int z = 0; z < H; z++) {
        for (int x = 0; x < W; x++) {
            int c = x + z * W;
            if (x > 0) putchar(' ');
            if (count[c] == 0) putchar('-');
            for (int k = 0; k < count[c]; k++) printf(k > 0 ? "/%u" : "%u", (unsigned)ids[index_of[c] + k]);
        }
        putchar('\n');
    }
}

static int refused(uint16_t number) {
    printf("refused %u\n(%s)\n", (unsigned)number, gussetraft_refusal_text(number));
    return 1;
}

/* Both functions and the listing, for lists of n spans. */
static int run(size_t n) {
    gussetraft_distance_answer far = gussetraft_build_distance_field(
        W, H, index_of, CELLS, count, CELLS, area, n, con, 4 * n, raw, n, blurred, n);
    if (far.refusal) return refused(far.refusal);

    uint16_t border_size = 0, min_region_area = 4, merge_region_area = 8;
    gussetraft_region_answer got = gussetraft_build_regions(
        W, H, index_of, CELLS, count, CELLS, area, n, con, 4 * n, blurred, n, far.max_distance,
        border_size, min_region_area, merge_region_area, workspace, GUSSETRAFT_WORKSPACE_LEN(n), ids, n);
    if (got.refusal) return refused(got.refusal);

    printf("max_distance %u max_region %u overlaps %u cut %u\n", (unsigned)far.max_distance, (unsigned)got.max_region, (unsigned)got.overlaps,
        (unsigned)got.cut);
    print_ids();
    return 0;
}

/* Mends the connections of n spans, and prints each change. */
static int mend(size_t n) {
    static uint16_t changes[GUSSETRAFT_CHANGES_LEN(SPANS)];
    gussetraft_mend_answer got = gussetraft_mend(
        W, H, index_of, CELLS, count, CELLS, area, n, con, 4 * n, changes, GUSSETRAFT_CHANGES_LEN(n));
    if (got.refusal) return refused((uint16_t)got.refusal);

    for (uint32_t k = 0; k < got.count; k++) {
        const uint16_t *change = changes + 3 * k;
        printf("mended: span %u, direction %u led to layer %u\n", (unsigned)change[0], (unsigned)change[1], (unsigned)change[2]);
    }
    return 0;
}

int main(void) {
    size_t n = field();
    if (run(n)) return 1;
    con[4] = GUSSETRAFT_NO_CONNECTION; /* the second span no longer answers the first: bad input, told by its number */
    if (run(n) != 1) return 1;
    return mend(n);
}
