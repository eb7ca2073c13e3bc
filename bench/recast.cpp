// recast distance|regions|peak NUMBER.field: C++ Recast's distance field and regions on a level that `side` wrote, each in a function of its own
// for the counter to see (as a shared library: side_recast_times, both timed). It prints how many distances and ids differ from the unchanged Rust's; with `peak`, the most memory in use.
#include <recastnavigation/Recast.h>
#include <recastnavigation/RecastAlloc.h>
#include <chrono>
#include <cstdio>
#include <cstdlib>
#include <cstring>
#include <string>
#include <unistd.h>
#include <vector>

typedef std::vector<unsigned char> Bytes;

static Bytes file(const std::string &path) {
    FILE *f = fopen(path.c_str(), "rb");
    if (!f) { perror(path.c_str()); exit(2); }
    Bytes b;
    unsigned char part[65536];
    for (size_t k; (k = fread(part, 1, sizeof part, f)) > 0;) b.insert(b.end(), part, part + k);
    fclose(f);
    return b;
}
static int u16(const unsigned char *b) { return b[0] | b[1] << 8; }

struct Level {
    int w, h, border, least, merge;
    std::vector<int> count;
    Bytes area, con;
};

// document 01's records: 1 header, 2 cell, 3 span, 4 end
static Level level(const Bytes &b) {
    Level l = {u16(&b[1]), u16(&b[3]), u16(&b[5]), u16(&b[7]), u16(&b[9]), {}, {}, {}};
    for (size_t i = 11; b[i] != 4;) {
        if (b[i] == 2) {
            l.count.push_back(b[i + 1]);
            i += 2;
        } else {
            l.area.push_back(b[i + 1]);
            l.con.insert(l.con.end(), &b[i + 2], &b[i + 6]);
            i += 6;
        }
    }
    return l;
}

static rcCompactHeightfield *heightfield(const Level &l) {
    int n = (int)l.area.size(), cells = l.w * l.h;
    rcCompactHeightfield *c = rcAllocCompactHeightfield();
    c->width = l.w; c->height = l.h; c->spanCount = n; c->walkableHeight = 2; c->walkableClimb = 1; c->cs = 1; c->ch = 1;
    c->cells = (rcCompactCell *)rcAlloc(sizeof(rcCompactCell) * (cells + 1), RC_ALLOC_PERM);
    c->spans = (rcCompactSpan *)rcAlloc(sizeof(rcCompactSpan) * (n + 1), RC_ALLOC_PERM);
    c->areas = (unsigned char *)rcAlloc(n + 1, RC_ALLOC_PERM);
    memset(c->spans, 0, sizeof(rcCompactSpan) * n);
    memcpy(c->areas, l.area.data(), n);
    unsigned at = 0;
    for (int i = 0; i < cells; i++) { c->cells[i].index = at; c->cells[i].count = l.count[i]; at += l.count[i]; }
    for (int s = 0; s < n; s++)
        for (int d = 0; d < 4; d++) rcSetCon(c->spans[s], d, l.con[4 * s + d] == 255 ? RC_NOT_CONNECTED : l.con[4 * s + d]);
    return c;
}

extern "C" __attribute__((noinline)) bool side_recast_distance(rcContext *ctx, rcCompactHeightfield *c) { return rcBuildDistanceField(ctx, *c); }
extern "C" __attribute__((noinline)) bool side_recast_regions(rcContext *ctx, rcCompactHeightfield *c, const Level *l) {
    return rcBuildRegions(ctx, *c, l->border, l->least, l->merge);
}

// the system's allocator, counted; a block's size stands before it
static size_t in_use, peak;
static void *counted_alloc(size_t size, rcAllocHint) {
    size_t *b = (size_t *)malloc(size + 16);
    if (!b) return 0;
    *b = size;
    in_use += size;
    if (in_use > peak) peak = in_use;
    return b + 2;
}
static void counted_free(void *p) {
    if (!p) return;
    size_t *b = (size_t *)p - 2;
    in_use -= *b;
    free(b);
}

// both entries on a new heightfield of the level in a file, in nanoseconds
extern "C" void side_recast_times(const char *path, unsigned long long *nanos) {
    typedef std::chrono::steady_clock Clock;
    Level l = level(file(path));
    rcCompactHeightfield *c = heightfield(l);
    rcContext ctx(false);
    Clock::time_point begun = Clock::now();
    bool ok = side_recast_distance(&ctx, c);
    Clock::time_point between = Clock::now();
    ok &= side_recast_regions(&ctx, c, &l);
    Clock::time_point ended = Clock::now();
    if (!ok) { fprintf(stderr, "%s: C++ Recast failed\n", path); exit(1); }
    nanos[0] = std::chrono::duration_cast<std::chrono::nanoseconds>(between - begun).count();
    nanos[1] = std::chrono::duration_cast<std::chrono::nanoseconds>(ended - between).count();
    rcFreeCompactHeightfield(c);
}

static void mark(long id) { if (getenv("SIDE_MARKS")) syscall(0x5e1, id); }

int main(int argc, char **argv) {
    if (argc != 3) return 2;
    std::string what = argv[1], path = argv[2];
    if (what == "peak") rcAllocSetCustom(counted_alloc, counted_free);
    Level l = level(file(path));
    int n = (int)l.area.size();
    rcCompactHeightfield *c = heightfield(l);
    rcContext ctx(false);
    size_t before = peak = in_use;
    mark(900);
    bool ok = side_recast_distance(&ctx, c);
    mark(1);
    if (what == "distance") return ok ? 0 : 1;
    ok &= side_recast_regions(&ctx, c, &l);
    mark(2);
    if (what == "peak") { printf("%zu\n", peak - before); return 0; }
    Bytes want = file(path.substr(0, path.rfind('.')) + ".answer");
    int far = 0, bad = 0;
    for (int s = 0; s < n; s++) {
        far += c->dist[s] != u16(&want[2 + 2 * s]);
        bad += c->spans[s].reg != u16(&want[4 + 2 * n + 2 * s]);
    }
    printf("%d %d\n", far, bad);
    return ok ? 0 : 1;
}
