// drop_in: gussetraft_recast.hpp beside C++ Recast, on heightfields by seed: distances, ids and maxRegions; what is refused, with what is logged; that
// a call that fails leaves the heightfield as it was, and no memory behind, whichever allocation fails. Ends with status 1 at the first difference.
#include "gussetraft_recast.hpp"

#include <cstdio>
#include <cstdlib>
#include <memory>
#include <string>
#include <vector>

namespace {

void must(bool right, const std::string &what) {
    if (right) return;
    std::fprintf(stderr, "drop_in: %s\n", what.c_str());
    std::exit(1);
}

// ---- an allocator that counts its blocks, and fails when it is told to

int blocks = 0, allocations = 0, failing = -1;

void *counted(size_t size, rcAllocHint) {
    if (allocations++ == failing) return nullptr;
    blocks++;
    return std::malloc(size);
}
void given(void *block) {
    blocks--;
    std::free(block);
}

// ---- a context that keeps what is logged

class Told : public rcContext {
public:
    std::string errors, warnings;

private:
    void doLog(const rcLogCategory category, const char *message, const int) override { (category == RC_LOG_ERROR ? errors : warnings) += std::string(message) + "\n"; }
};

// ---- heightfields

struct Freed {
    void operator()(rcCompactHeightfield *p) const { rcFreeCompactHeightfield(p); }
};
typedef std::unique_ptr<rcCompactHeightfield, Freed> Heightfield;

// w by h cells, counts[..] spans each, none joined, all walkable
Heightfield bare(int w, int h, const std::vector<int> &counts) {
    Heightfield chf(rcAllocCompactHeightfield());
    int n = 0;
    for (int c : counts) n += c;
    chf->width = w;
    chf->height = h;
    chf->spanCount = n;
    chf->walkableHeight = 2;
    chf->walkableClimb = 1;
    chf->cs = chf->ch = 1;
    chf->cells = static_cast<rcCompactCell *>(rcAlloc(sizeof(rcCompactCell) * (counts.size() + 1), RC_ALLOC_PERM));
    chf->spans = static_cast<rcCompactSpan *>(rcAlloc(sizeof(rcCompactSpan) * static_cast<size_t>(n + 1), RC_ALLOC_PERM));
    chf->areas = static_cast<unsigned char *>(rcAlloc(static_cast<size_t>(n + 1), RC_ALLOC_PERM));
    unsigned at = 0;
    for (size_t c = 0; c < counts.size(); c++) {
        chf->cells[c].index = at & 0xffffff;
        chf->cells[c].count = static_cast<unsigned>(counts[c]) & 0xff;
        at += static_cast<unsigned>(counts[c]);
    }
    for (int s = 0; s < n; s++) {
        chf->spans[s] = rcCompactSpan();
        for (int d = 0; d < 4; d++) rcSetCon(chf->spans[s], d, RC_NOT_CONNECTED);
        chf->areas[s] = RC_WALKABLE_AREA;
    }
    return chf;
}

unsigned long long state;
int below(int most) { // xorshift
    state ^= state << 13;
    state ^= state >> 7;
    state ^= state << 17;
    return static_cast<int>(state % static_cast<unsigned long long>(most));
}

// Rooms of some side with doors, in a few storeys; blocks of another area; holes.
Heightfield random(int seed) {
    state = 0x9e3779b97f4a7c15ull * static_cast<unsigned long long>(seed + 1);
    const int w = 1 + below(60), h = 1 + below(60), storeys = 1 + below(3), side = 4 + below(12), holes = below(12);
    std::vector<int> counts;
    for (int c = 0; c < w * h; c++) {
        const bool wall = (c % w % side == side - 1 && c / w % side != side / 2) || (c / w % side == side - 1 && c % w % side != side / 2);
        counts.push_back(wall || below(100) < holes ? 0 : storeys);
    }
    Heightfield chf = bare(w, h, counts);
    for (int z = 0; z < h; z++) {
        for (int x = 0; x < w; x++) {
            const int c = x + z * w;
            for (int k = 0; k < counts[static_cast<size_t>(c)]; k++) {
                const unsigned s = chf->cells[c].index + static_cast<unsigned>(k);
                if (below(100) < 3) chf->areas[s] = static_cast<unsigned char>(below(3));
                for (int d = 0; d < 4; d++) {
                    const int ax = x + rcGetDirOffsetX(d), az = z + rcGetDirOffsetY(d);
                    if (ax >= 0 && ax < w && az >= 0 && az < h && counts[static_cast<size_t>(ax + az * w)] > k) rcSetCon(chf->spans[s], d, k);
                }
            }
        }
    }
    return chf;
}

// all joined, one span a cell
Heightfield open(int w, int h) {
    Heightfield chf = bare(w, h, std::vector<int>(static_cast<size_t>(w * h), 1));
    for (int c = 0; c < w * h; c++) {
        for (int d = 0; d < 4; d++) {
            const int ax = c % w + rcGetDirOffsetX(d), az = c / w + rcGetDirOffsetY(d);
            if (ax >= 0 && ax < w && az >= 0 && az < h) rcSetCon(chf->spans[c], d, 0);
        }
    }
    return chf;
}

// All that a call may write.
struct Written {
    explicit Written(const rcCompactHeightfield &chf) : maxDistance(chf.maxDistance), maxRegions(chf.maxRegions), borderSize(chf.borderSize), at(chf.dist) {
        for (int s = 0; s < chf.spanCount; s++) {
            if (chf.dist) dist.push_back(chf.dist[s]);
            if (chf.spans) reg.push_back(chf.spans[s].reg);
        }
    }
    bool operator==(const Written &o) const {
        return maxDistance == o.maxDistance && maxRegions == o.maxRegions && borderSize == o.borderSize && at == o.at && dist == o.dist && reg == o.reg;
    }
    int maxDistance, maxRegions, borderSize;
    const void *at;
    std::vector<int> dist, reg;
};

// ---- beside Recast

// The ids and distances of a seed's field both ways. Gives how many ids differ.
int beside(int seed, int border, int least, int merge, gussetraft::Workspace &workspace) {
    const std::string name = "seed " + std::to_string(seed);
    Heightfield theirs = random(seed), ours = random(seed);
    Told one, other;
    must(rcBuildDistanceField(&one, *theirs) && rcBuildRegions(&one, *theirs, border, least, merge), name + ": Recast failed");
    must(gussetraft::buildDistanceField(&other, *ours), name + ": " + other.errors);
    must(gussetraft::buildRegions(&other, *ours, border, least, merge, workspace), name + ": " + other.errors);
    must(theirs->maxDistance == ours->maxDistance && ours->borderSize == border, name + ": the greatest distance or the border size is another");
    must(border > 0 || theirs->maxRegions == ours->maxRegions, name + ": maxRegions is another");
    must(border > 0 || one.errors.empty() == other.errors.empty(), name + ": overlaps are told by one alone");
    int differ = 0;
    for (int s = 0; s < ours->spanCount; s++) {
        must(theirs->dist[s] == ours->dist[s], name + ": a distance is another");
        const unsigned short a = theirs->spans[s].reg, b = ours->spans[s].reg;
        must((a & RC_BORDER_REG) == (b & RC_BORDER_REG) && (!(a & RC_BORDER_REG) || a == b), name + ": the painted border is another");
        must((b & RC_BORDER_REG) || b <= ours->maxRegions, name + ": an id is above maxRegions");
        differ += a != b;
    }
    must(border > 0 || differ == 0, name + ": an id is another");
    return differ;
}

// ---- what is refused

int tried = 0;

// Both calls, or those whose text is given, must fail, with this in the log, and leave the heightfield as it was.
void refused(rcCompactHeightfield &chf, const char *distances, const char *regions, int border = 0, int least = 0, int merge = 0) {
    const Written before(chf);
    if (distances) {
        Told told;
        must(!gussetraft::buildDistanceField(&told, chf), std::string("not refused: ") + distances);
        must(told.errors == std::string("gussetraft::buildDistanceField: ") + distances + "\n", "logged: " + told.errors);
        must(before == Written(chf), std::string("the heightfield has changed: ") + distances);
        tried++;
    }
    if (regions) {
        Told told;
        must(!gussetraft::buildRegions(&told, chf, border, least, merge), std::string("not refused: ") + regions);
        must(told.errors == std::string("gussetraft::buildRegions: ") + regions + "\n", "logged: " + told.errors);
        must(before == Written(chf), std::string("the heightfield has changed: ") + regions);
        tried++;
    }
}

void refusals() {
    Told told;
    const char *const wide = "refused 1: the width or the height is above 256";
    refused(*open(257, 2), wide, wide);
    refused(*open(2, 65537), wide, wide); // 1 in 16 bits
    const char *const many = "refused 2: there are more than 65,000 spans";
    refused(*open(256, 254), many, many);
    Heightfield high = bare(2, 1, {64, 1});
    const char *const cells = "refused 4: a cell's count is above 63, its index is wrong, or the counts do not sum to the number of spans";
    refused(*high, cells, nullptr);
    Heightfield moved = open(3, 3);
    moved->cells[4].index = 5;
    refused(*moved, cells, nullptr);

    // a field with distances and regions, whose connections then go astray
    Heightfield edited = open(9, 9);
    must(gussetraft::buildDistanceField(&told, *edited) && gussetraft::buildRegions(&told, *edited, 2, 3, 4), "an open field: " + told.errors);
    must(edited->spans[40].reg == 5 && edited->spans[0].reg == (RC_BORDER_REG | 3) && edited->maxRegions == 6, "an open field has other ids");
    rcSetCon(edited->spans[40], 2, RC_NOT_CONNECTED);
    const char *const back = "refused 6: a connection is not answered from the other side";
    refused(*edited, back, back);
    rcSetCon(edited->spans[40], 2, 7);
    const char *const reach = "refused 5: a connection leaves the grid or names a layer that the cell lacks";
    refused(*edited, reach, reach);
    rcSetCon(edited->spans[40], 2, 0);
    edited->dist[40] = 9;
    refused(*edited, nullptr, "refused 8: the greatest distance is above 510, or a distance is above the greatest");
    must(gussetraft::buildDistanceField(&told, *edited), "mended: " + told.errors);
    refused(*edited, nullptr, "a border size or area below 0 (-1, 0, 0)", -1, 0, 0);
    refused(*edited, nullptr, "a border size or area below 0 (0, -1, 0)", 0, -1, 0);
    refused(*edited, nullptr, "a border size or area below 0 (0, 0, -1)", 0, 0, -1);
    refused(*open(3, 3), nullptr, "there is no distance field: buildDistanceField comes first");

    Heightfield less = open(3, 3);
    less->spanCount = -1;
    refused(*less, "a width, height or number of spans below 0 (3, 3, -1)", nullptr);
    less->spanCount = 9;
    rcFree(less->areas);
    less->areas = nullptr;
    refused(*less, "the heightfield has no cells, spans or areas", nullptr);

    // sizes above 16 bits mean what they mean to Recast
    Heightfield theirs = random(7), ours = random(7);
    must(rcBuildDistanceField(&told, *theirs) && rcBuildRegions(&told, *theirs, 0, 70000, 1 << 30), "Recast failed");
    must(gussetraft::buildDistanceField(&told, *ours) && gussetraft::buildRegions(&told, *ours, 0, 70000, 1 << 30), "large sizes: " + told.errors);
    for (int s = 0; s < ours->spanCount; s++) must(theirs->spans[s].reg == ours->spans[s].reg, "an id is another with large sizes");

    // no cells at all
    Heightfield none = bare(0, 0, {});
    must(gussetraft::buildDistanceField(&told, *none) && gussetraft::buildRegions(&told, *none, 1, 1, 1), "no cells: " + told.errors);
    must(none->maxRegions == 5 && none->borderSize == 1, "no cells: maxRegions is another");
}

// Each allocation fails once. What is left is what was there.
int memory() {
    Heightfield chf = open(12, 12);
    Told told;
    must(gussetraft::buildDistanceField(&told, *chf) && gussetraft::buildRegions(&told, *chf, 0, 0, 0), "an open field: " + told.errors);
    const int held = blocks;
    int failures = 0;
    for (const bool regions : {false, true}) {
        const Written before(*chf);
        for (int k = 0;; k++) {
            Told now;
            allocations = 0;
            failing = k;
            const bool done = regions ? gussetraft::buildRegions(&now, *chf, 3, 0, 0) : gussetraft::buildDistanceField(&now, *chf);
            failing = -1;
            must(blocks == held, "memory was left behind");
            if (done) break;
            failures++;
            must(now.errors.find("Out of memory") != std::string::npos, "out of memory is not told: " + now.errors);
            must(before == Written(*chf), "the heightfield has changed where memory ran out");
        }
    }
    return failures;
}

} // namespace

int main() {
    rcAllocSetCustom(counted, given);
    const int fields = 400;
    int bordered = 0;
    {
        gussetraft::Workspace workspace;
        for (int seed = 0; seed < fields; seed++) {
            must(beside(seed, 0, seed % 5 * 8, seed % 7 * 30, workspace) == 0, "an id is another");
            bordered += beside(seed, 1 + seed % 4, seed % 5 * 8, seed % 7 * 30, workspace) > 0;
        }
    }
    std::printf("%d fields without a border: distances, ids and maxRegions are Recast's\n", fields);
    std::printf("%d fields with a border: distances and the border are Recast's; %d have an id that is not\n", fields, bordered);
    refusals();
    std::printf("%d refused calls, and sizes at the edges\n", tried);
    std::printf("%d allocations failed one after the other\n", memory());
    must(blocks == 0, std::to_string(blocks) + " blocks were never given back");
    return 0;
}
