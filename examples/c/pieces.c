/* pieces: a field file that arrives a few bytes at a time. The lists are lent to each call, and the loader goes from call to call. */
#include "gussetraft.h"
#include <stdio.h>

enum { CELLS = 64, SPANS = 64 }; /* the most that this program takes */

static uint32_t index_of[CELLS];
static uint8_t count[CELLS], area[SPANS], con[4 * SPANS];

/* Two cells in a row, a span each, joined: header, cell, span, cell, span, end. */
static const uint8_t file[] = {
    1, 2, 0, 1, 0, 0, 0, 8, 0, 20, 0,
    2, 1, 3, 1, 255, 255, 0, 255,
    2, 1, 3, 1, 0, 255, 255, 255,
    4};

static void tell(const char *what, gussetraft_load_answer got) {
    printf("%s: refused %u at byte %u\n(%s)\n", what, (unsigned)got.refusal, (unsigned)got.position, gussetraft_refusal_text((uint16_t)got.refusal));
}

/* Loads the bytes in pieces of so many, and declares their end. */
static gussetraft_load_answer load(gussetraft_loader *loader, const uint8_t *bytes, size_t len, size_t piece) {
    gussetraft_load_answer got = {0, 0};
    *loader = gussetraft_load_begin(CELLS, SPANS);
    for (size_t at = 0; at < len && got.refusal == 0; at += piece) {
        size_t n = len - at < piece ? len - at : piece;
        got = gussetraft_load_piece(loader, bytes + at, n, index_of, CELLS, count, CELLS, area, SPANS, con, 4 * SPANS);
    }
    return gussetraft_load_end(loader); /* after a refusal this gives the same refusal again */
}

int main(void) {
    gussetraft_loader loader;
    for (size_t piece = 1; piece <= sizeof file; piece *= 3) {
        gussetraft_load_answer got = load(&loader, file, sizeof file, piece);
        if (got.refusal != 0) {
            tell("the file", got);
            return 1;
        }
        printf("pieces of %u: %u by %u cells, %u spans, merge area %u\n", (unsigned)piece, (unsigned)gussetraft_loaded_w(&loader),
               (unsigned)gussetraft_loaded_h(&loader), (unsigned)gussetraft_loaded_spans(&loader), (unsigned)gussetraft_loaded_merge_region_area(&loader));
    }

    uint16_t w = gussetraft_loaded_w(&loader), h = gussetraft_loaded_h(&loader);
    size_t cells = (size_t)w * h, n = gussetraft_loaded_spans(&loader);
    uint16_t raw[SPANS], blurred[SPANS];
    gussetraft_distance_answer distances =
        gussetraft_build_distance_field(w, h, index_of, cells, count, cells, area, n, con, 4 * n, raw, n, blurred, n);
    printf("refused %u, max_distance %u\n", (unsigned)distances.refusal, (unsigned)distances.max_distance);

    tell("its first 20 bytes", load(&loader, file, 20, 7));
    uint8_t damaged[sizeof file];
    for (size_t i = 0; i < sizeof file; i++) damaged[i] = file[i];
    damaged[13] = 2; /* a cell where a span is due */
    tell("a cell for a span", load(&loader, damaged, sizeof damaged, 7));
    return 0;
}
