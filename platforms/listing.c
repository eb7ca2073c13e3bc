/* listing FILES OUT: field files one after the other, each after its length (4 bytes, little-endian), through the library's loader in pieces and both
 * entries; to OUT goes what document 01's program prints for each. So crates/vectors/stdin gives crates/vectors/stdout. The same source for every machine. */
#include "gussetraft.h"
#include <stdio.h>
#include <stdlib.h>

enum { CELLS = 1024, SPANS = 200, PIECE = 7 }; /* document 01's limits; any length of a piece gives the same */

static uint32_t index_of[CELLS];
static uint8_t count[CELLS], area[SPANS], con[4 * SPANS];
static uint16_t raw[SPANS], blurred[SPANS], ids[SPANS];
static uint16_t workspace[128 * SPANS + 4096];

static void stop(const char *why) {
    fprintf(stderr, "listing: %s\n", why);
    exit(2);
}

static void refused(FILE *out, unsigned number) { fprintf(out, "refused %u\n", number); }

static void rows(FILE *out, uint16_t w, uint16_t h) {
    for (unsigned z = 0; z < h; z++) {
        for (unsigned x = 0; x < w; x++) {
            unsigned cell = x + z * w;
            if (x > 0) fputc(' ', out);
            if (count[cell] == 0) fputc('-', out);
            for (unsigned layer = 0; layer < count[cell]; layer++) {
                if (layer > 0) fputc('/', out);
                fprintf(out, "%u", (unsigned)ids[index_of[cell] + layer]);
            }
        }
        fputc('\n', out);
    }
}

static void answer(FILE *out, const uint8_t *bytes, size_t len) {
    gussetraft_loader loader = gussetraft_load_begin(CELLS, SPANS);
    gussetraft_load_answer loaded = {0, 0};
    for (size_t at = 0; at < len && loaded.refusal == 0; at += PIECE) {
        size_t n = len - at < PIECE ? len - at : PIECE;
        loaded = gussetraft_load_piece(&loader, bytes + at, n, index_of, CELLS, count, CELLS, area, SPANS, con, 4 * SPANS);
    }
    loaded = gussetraft_load_end(&loader);
    if (loaded.refusal != 0) {
        refused(out, (unsigned)loaded.refusal);
        return;
    }
    uint16_t w = gussetraft_loaded_w(&loader), h = gussetraft_loaded_h(&loader);
    size_t cells = (size_t)w * h, n = gussetraft_loaded_spans(&loader);
    gussetraft_distance_answer d = gussetraft_build_distance_field(w, h, index_of, cells, count, cells, area, n, con, 4 * n, raw, n, blurred, n);
    if (d.refusal != 0) {
        refused(out, d.refusal);
        return;
    }
    gussetraft_region_answer r = gussetraft_build_regions(
        w, h, index_of, cells, count, cells, area, n, con, 4 * n, blurred, n, d.max_distance, gussetraft_loaded_border_size(&loader),
        gussetraft_loaded_min_region_area(&loader), gussetraft_loaded_merge_region_area(&loader), workspace, GUSSETRAFT_WORKSPACE_LEN(n), ids, n);
    if (r.refusal != 0) {
        refused(out, r.refusal);
        return;
    }
    fprintf(out, "max_distance %u max_region %u overlaps %u cut %u\n", (unsigned)d.max_distance, (unsigned)r.max_region, (unsigned)r.overlaps,
            (unsigned)r.cut);
    rows(out, w, h);
}

int main(int argc, char **argv) {
    static uint8_t bytes[4096];
    uint8_t head[4];
    unsigned long files = 0;
    if (argc != 3) stop("usage: listing FILES OUT");
    FILE *in = fopen(argv[1], "rb"), *out = fopen(argv[2], "wb");
    if (in == NULL || out == NULL) stop("the files can not be opened");
    for (;;) {
        size_t got = fread(head, 1, 4, in);
        if (got == 0) break;
        size_t len = (size_t)head[0] | (size_t)head[1] << 8 | (size_t)head[2] << 16 | (size_t)head[3] << 24;
        if (got != 4 || len > sizeof bytes || fread(bytes, 1, len, in) != len) stop("the files are cut short, or one has more than 4,096 bytes");
        answer(out, bytes, len);
        files++;
    }
    if (ferror(in) || fclose(out) != 0) stop("the files can not be read, or the answers not be written");
    printf("%lu files\n", files);
    return files == 0;
}
