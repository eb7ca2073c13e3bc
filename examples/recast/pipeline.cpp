// pipeline [OPTION..] MESH.obj: a triangle mesh through C++ Recast to a polygon mesh, once with Recast's own distances and regions and once with
// Gussetraft's, and where the two differ. With --dump it writes the compact heightfields as field files instead. `pipeline --help` tells the options.
#include "gussetraft_recast.hpp"

#include <algorithm>
#include <array>
#include <cmath>
#include <cstdio>
#include <cstdlib>
#include <cstring>
#include <filesystem>
#include <fstream>
#include <map>
#include <memory>
#include <sstream>
#include <stdexcept>
#include <string>
#include <vector>

namespace {

const char help[] = "usage: pipeline [OPTION..] MESH.obj\n"
                    "       pipeline --dump DIR [OPTION..] MESH.obj\n"
                    "\n"
                    "The mesh is rasterised, filtered, compacted and eroded by Recast; distances and regions come from Recast and from Gussetraft; contours and the\n"
                    "polygon mesh again from Recast. Both polygon meshes are counted, and where they differ is told.\n"
                    "\n"
                    "--dump DIR  writes field files (document 01's records) to DIR, which is made if it is not there, in place of that: NAME.field, or NAME-X-Z.field for each tile\n"
                    "--tile N    tiles of N by N cells beside a border, in place of the whole level with none; N and the border on both sides are at most 256 together\n"
                    "\n"
                    "The level's units are the mesh's, mostly metres, y up:\n"
                    "--cell 0.3  --cell-height 0.2  --agent-height 2  --agent-radius 0.6  --agent-climb 0.9  --slope 45 (degrees)\n"
                    "--region 8  --merge 20   sides in cells of the least region and of one that is merged; their squares are the two areas\n"
                    "\n"
                    "Exit status: 0 done, 1 refused or failed, which is told on standard error, 2 wrong words or a file that can't be read or written.\n";

struct Usage : std::runtime_error {
    using std::runtime_error::runtime_error;
};
struct Failed : std::runtime_error {
    using std::runtime_error::runtime_error;
};

struct Settings {
    float cell = 0.3f, cellHeight = 0.2f, agentHeight = 2, agentRadius = 0.6f, agentClimb = 0.9f, slope = 45;
    int region = 8, merge = 20, tile = 0;

    int height() const { return static_cast<int>(std::ceil(agentHeight / cellHeight)); }
    int climb() const { return static_cast<int>(std::floor(agentClimb / cellHeight)); }
    int radius() const { return static_cast<int>(std::ceil(agentRadius / cell)); }
    // as wide as Recast's own demo has it: the erosion, and 3 cells more
    int border() const { return tile > 0 ? radius() + 3 : 0; }
    int least() const { return region * region; }
    int merged() const { return merge * merge; }
};

// ---- the mesh

struct Mesh {
    std::vector<float> vertices;
    std::vector<int> triangles;
    float low[3], high[3];

    int vertexCount() const { return static_cast<int>(vertices.size() / 3); }
    int triangleCount() const { return static_cast<int>(triangles.size() / 3); }
};

// The vertices and faces of an .obj file; a face of more corners becomes a fan. Everything else in it is passed over.
Mesh readMesh(const std::string &path) {
    std::ifstream in(path);
    if (!in) throw Usage(path + " can't be read");
    Mesh mesh;
    std::string line;
    for (int number = 1; std::getline(in, line); number++) {
        std::istringstream words(line);
        std::string kind;
        words >> kind;
        const std::string place = path + ":" + std::to_string(number) + ": ";
        if (kind == "v") {
            float x, y, z;
            if (!(words >> x >> y >> z) || !std::isfinite(x) || !std::isfinite(y) || !std::isfinite(z)) throw Usage(place + "a vertex has three numbers");
            mesh.vertices.insert(mesh.vertices.end(), {x, y, z});
        } else if (kind == "f") {
            std::vector<int> corners;
            for (std::string word; words >> word;) {
                // the number before a slash; one below 0 counts from the last vertex
                char *end;
                const long corner = std::strtol(word.c_str(), &end, 10);
                const long vertex = corner < 0 ? mesh.vertexCount() + corner : corner - 1;
                if (end == word.c_str() || (*end != '\0' && *end != '/') || vertex < 0 || vertex >= mesh.vertexCount())
                    throw Usage(place + "a face names a vertex that is not there: " + word);
                corners.push_back(static_cast<int>(vertex));
            }
            if (corners.size() < 3) throw Usage(place + "a face has three corners at least");
            for (std::size_t k = 2; k < corners.size(); k++) mesh.triangles.insert(mesh.triangles.end(), {corners[0], corners[k - 1], corners[k]});
        }
    }
    if (mesh.triangles.empty()) throw Usage(path + " has no faces");
    rcCalcBounds(mesh.vertices.data(), mesh.vertexCount(), mesh.low, mesh.high);
    return mesh;
}

// ---- Recast, up to the compact heightfield

// Everything that is logged goes to standard error.
class Context : public rcContext {
    void doLog(const rcLogCategory, const char *message, const int) override { std::fprintf(stderr, "%s\n", message); }
};

struct Freed {
    void operator()(rcHeightfield *p) const { rcFreeHeightField(p); }
    void operator()(rcCompactHeightfield *p) const { rcFreeCompactHeightfield(p); }
    void operator()(rcContourSet *p) const { rcFreeContourSet(p); }
    void operator()(rcPolyMesh *p) const { rcFreePolyMesh(p); }
};
template <typename T> using Owned = std::unique_ptr<T, Freed>;

template <typename T> Owned<T> made(T *p) {
    if (!p) throw Failed("out of memory");
    return Owned<T>(p);
}
void must(bool done, const char *what) {
    if (!done) throw Failed(std::string(what) + " failed");
}

// A part of the level: its cells, and where they are.
struct Part {
    std::string name;
    int w, h;
    float low[3], high[3];
};

// The whole level, or its tiles with their borders.
std::vector<Part> parts(const Mesh &mesh, const Settings &s) {
    int w, h;
    rcCalcGridSize(mesh.low, mesh.high, s.cell, &w, &h);
    Part whole = {"", w, h, {}, {}};
    std::copy(mesh.low, mesh.low + 3, whole.low);
    std::copy(mesh.high, mesh.high + 3, whole.high);
    if (s.tile == 0) return {whole};
    std::vector<Part> tiles;
    const float side = static_cast<float>(s.tile) * s.cell, beside = static_cast<float>(s.border()) * s.cell;
    for (int z = 0; z * s.tile < h; z++) {
        for (int x = 0; x * s.tile < w; x++) {
            Part tile = whole;
            tile.name = "-" + std::to_string(x) + "-" + std::to_string(z);
            tile.w = tile.h = s.tile + 2 * s.border();
            tile.low[0] = mesh.low[0] + static_cast<float>(x) * side - beside;
            tile.low[2] = mesh.low[2] + static_cast<float>(z) * side - beside;
            tile.high[0] = mesh.low[0] + static_cast<float>(x + 1) * side + beside;
            tile.high[2] = mesh.low[2] + static_cast<float>(z + 1) * side + beside;
            tiles.push_back(tile);
        }
    }
    return tiles;
}

// The triangles that can lie in a part.
std::vector<int> trianglesIn(const Mesh &mesh, const Part &part) {
    std::vector<int> inside;
    for (std::size_t t = 0; t < mesh.triangles.size(); t += 3) {
        bool apart = false;
        for (int axis : {0, 2}) {
            const auto [low, high] = std::minmax({mesh.vertices[3 * static_cast<std::size_t>(mesh.triangles[t]) + static_cast<std::size_t>(axis)],
                                                  mesh.vertices[3 * static_cast<std::size_t>(mesh.triangles[t + 1]) + static_cast<std::size_t>(axis)],
                                                  mesh.vertices[3 * static_cast<std::size_t>(mesh.triangles[t + 2]) + static_cast<std::size_t>(axis)]});
            apart |= high < part.low[axis] || low > part.high[axis];
        }
        if (!apart) inside.insert(inside.end(), &mesh.triangles[t], &mesh.triangles[t] + 3);
    }
    return inside;
}

Owned<rcCompactHeightfield> compact(Context &ctx, const Mesh &mesh, const Settings &s, const Part &part) {
    auto solid = made(rcAllocHeightfield());
    must(rcCreateHeightfield(&ctx, *solid, part.w, part.h, part.low, part.high, s.cell, s.cellHeight), "rcCreateHeightfield");
    const std::vector<int> triangles = trianglesIn(mesh, part);
    const int count = static_cast<int>(triangles.size() / 3);
    std::vector<unsigned char> areas(static_cast<std::size_t>(count), RC_NULL_AREA);
    rcMarkWalkableTriangles(&ctx, s.slope, mesh.vertices.data(), mesh.vertexCount(), triangles.data(), count, areas.data());
    must(rcRasterizeTriangles(&ctx, mesh.vertices.data(), mesh.vertexCount(), triangles.data(), areas.data(), count, *solid, s.climb()), "rcRasterizeTriangles");
    rcFilterLowHangingWalkableObstacles(&ctx, s.climb(), *solid);
    rcFilterLedgeSpans(&ctx, s.height(), s.climb(), *solid);
    rcFilterWalkableLowHeightSpans(&ctx, s.height(), *solid);
    auto chf = made(rcAllocCompactHeightfield());
    must(rcBuildCompactHeightfield(&ctx, s.height(), s.climb(), *solid, *chf), "rcBuildCompactHeightfield");
    must(rcErodeWalkableArea(&ctx, s.radius(), *chf), "rcErodeWalkableArea");
    return chf;
}

// ---- the field file

void put16(std::string &out, int number, const char *what) {
    if (number < 0 || number > 0xffff) throw Failed(std::string(what) + " of " + std::to_string(number) + " does not fit a field file");
    out += static_cast<char>(number & 0xff);
    out += static_cast<char>(number >> 8);
}

// Document 01's records: 1 header, 2 cell, 3 span, 4 end.
std::string fieldFile(const rcCompactHeightfield &chf, const Settings &s) {
    std::string out = "\1";
    put16(out, chf.width, "a width");
    put16(out, chf.height, "a height");
    put16(out, s.border(), "a border size");
    put16(out, s.least(), "a least area");
    put16(out, s.merged(), "a merge area");
    for (int c = 0; c < chf.width * chf.height; c++) {
        const rcCompactCell &cell = chf.cells[c];
        out += '\2';
        out += static_cast<char>(cell.count);
        for (unsigned k = 0; k < cell.count; k++) {
            const unsigned i = cell.index + k;
            out += '\3';
            out += static_cast<char>(chf.areas[i]);
            for (int d = 0; d < 4; d++) {
                const int layer = rcGetCon(chf.spans[i], d);
                out += static_cast<char>(layer == RC_NOT_CONNECTED ? GUSSETRAFT_NO_CONNECTION : layer);
            }
        }
    }
    return out + '\4';
}

// Whether the library's loader reads from a file what Gussetraft is handed of the heightfield itself.
bool readsBack(const std::string &file, const rcCompactHeightfield &chf, const Settings &s) {
    const gussetraft::detail::Field field(chf);
    if (!field.made()) throw Failed("out of memory");
    const std::size_t cells = field.cells, n = field.spans;
    std::vector<std::uint32_t> index(cells);
    std::vector<std::uint8_t> count(cells), area(n), con(4 * n);
    gussetraft_loader loader = gussetraft_load_begin(static_cast<std::uint32_t>(cells), static_cast<std::uint32_t>(n));
    gussetraft_load_piece(&loader, reinterpret_cast<const std::uint8_t *>(file.data()), file.size(), index.data(), cells, count.data(), cells, area.data(), n, con.data(), 4 * n);
    if (gussetraft_load_end(&loader).refusal != 0 || gussetraft_loaded_spans(&loader) != n) return false;
    if (gussetraft_loaded_w(&loader) != chf.width || gussetraft_loaded_h(&loader) != chf.height || gussetraft_loaded_border_size(&loader) != s.border()) return false;
    if (gussetraft_loaded_min_region_area(&loader) != s.least() || gussetraft_loaded_merge_region_area(&loader) != s.merged()) return false;
    for (std::size_t c = 0; c < cells; c++) {
        // an empty cell's index is not looked at
        if (count[c] != field.count[c] || (count[c] > 0 && index[c] != field.index[c])) return false;
    }
    return std::equal(area.begin(), area.end(), field.area.at()) && std::equal(con.begin(), con.end(), field.con.at());
}

int dump(Context &ctx, const Mesh &mesh, const Settings &s, const std::string &folder, const std::string &name) {
    int files = 0, spans = 0;
    std::error_code wrong;
    std::filesystem::create_directories(folder, wrong);
    if (wrong) throw Usage(folder + " can't be made: " + wrong.message());
    for (const Part &part : parts(mesh, s)) {
        const auto chf = compact(ctx, mesh, s, part);
        if (chf->spanCount == 0) continue; // a tile with nothing in it
        const std::string path = folder + "/" + name + part.name + ".field";
        const std::string bytes = fieldFile(*chf, s);
        if (!readsBack(bytes, *chf, s)) throw Failed(path + " would not read back as the heightfield that it was made of");
        std::ofstream file(path, std::ios::binary);
        file.write(bytes.data(), static_cast<std::streamsize>(bytes.size()));
        file.close();
        if (!file) throw Usage(path + " can't be written");
        if (chf->width > 256 || chf->height > 256 || chf->spanCount > 65000)
            std::fprintf(stderr, "pipeline: %s has %d by %d cells and %d spans, more than the library takes; use smaller tiles (--tile)\n", path.c_str(), chf->width, chf->height,
                         chf->spanCount);
        files++;
        spans += chf->spanCount;
    }
    std::printf("%d field file%s, %d spans\n", files, files == 1 ? "" : "s", spans);
    return 0;
}

// ---- both ways to a polygon mesh

struct Built {
    Owned<rcCompactHeightfield> chf;
    Owned<rcContourSet> contours;
    Owned<rcPolyMesh> polygons;
};

Built build(Context &ctx, const Mesh &mesh, const Settings &s, const Part &part, bool gussetraft) {
    Built built;
    built.chf = compact(ctx, mesh, s, part);
    rcCompactHeightfield &chf = *built.chf;
    if (gussetraft) {
        must(gussetraft::buildDistanceField(&ctx, chf), "gussetraft::buildDistanceField");
        must(gussetraft::buildRegions(&ctx, chf, s.border(), s.least(), s.merged()), "gussetraft::buildRegions");
    } else {
        must(rcBuildDistanceField(&ctx, chf), "rcBuildDistanceField");
        must(rcBuildRegions(&ctx, chf, s.border(), s.least(), s.merged()), "rcBuildRegions");
    }
    built.contours = made(rcAllocContourSet());
    must(rcBuildContours(&ctx, chf, 1.3f, static_cast<int>(12 / s.cell), *built.contours), "rcBuildContours");
    built.polygons = made(rcAllocPolyMesh());
    must(rcBuildPolyMesh(&ctx, *built.contours, 6, *built.polygons), "rcBuildPolyMesh");
    return built;
}

typedef std::array<unsigned short, 3> Corner;
typedef std::vector<Corner> Polygon;

// The polygons by their corners, each from its least corner on; how often each is there.
std::map<Polygon, int> polygonsOf(const rcPolyMesh &mesh) {
    std::map<Polygon, int> all;
    for (int p = 0; p < mesh.npolys; p++) {
        Polygon polygon;
        for (int k = 0; k < mesh.nvp && mesh.polys[p * 2 * mesh.nvp + k] != RC_MESH_NULL_IDX; k++) {
            const unsigned short *v = &mesh.verts[3 * mesh.polys[p * 2 * mesh.nvp + k]];
            polygon.push_back({v[0], v[1], v[2]});
        }
        std::rotate(polygon.begin(), std::min_element(polygon.begin(), polygon.end()), polygon.end());
        all[polygon]++;
    }
    return all;
}

// Prints the polygons of the one that the other lacks, and gives their number.
int only(const char *who, const std::map<Polygon, int> &one, const std::map<Polygon, int> &other) {
    int count = 0;
    for (const auto &[polygon, times] : one) {
        const auto found = other.find(polygon);
        for (int k = found == other.end() ? 0 : found->second; k < times; k++, count++) {
            std::printf("  only %s:", who);
            for (const Corner &c : polygon) std::printf(" (%d,%d,%d)", c[0], c[1], c[2]);
            std::printf("\n");
        }
    }
    return count;
}

struct Differences {
    int distances = 0, ids = 0, gone = 0, come = 0;
};

// Prints the ids that differ, as far as there are few; gives their number.
int differingIds(const rcCompactHeightfield &one, const rcCompactHeightfield &other) {
    const int most = 10;
    int count = 0;
    for (int c = 0; c < one.width * one.height; c++) {
        for (unsigned k = 0; k < one.cells[c].count; k++) {
            const unsigned span = one.cells[c].index + k;
            if (one.spans[span].reg == other.spans[span].reg) continue;
            if (++count <= most)
                std::printf("  cell (%d,%d) layer %u: id %d with Recast, %d with Gussetraft\n", c % one.width, c / one.width, k, one.spans[span].reg, other.spans[span].reg);
        }
    }
    if (count > most) std::printf("  and %d more\n", count - most);
    return count;
}

// Prints where the two differ, and counts it.
Differences differences(const Built &recast, const Built &ours) {
    Differences d;
    for (int i = 0; i < ours.chf->spanCount; i++) d.distances += recast.chf->dist[i] != ours.chf->dist[i];
    d.ids = differingIds(*recast.chf, *ours.chf);
    const auto theirs = polygonsOf(*recast.polygons), mine = polygonsOf(*ours.polygons);
    d.gone = only("Recast", theirs, mine);
    d.come = only("Gussetraft", mine, theirs);
    return d;
}

// The numbers of both, and where they differ.
void compareWhole(Context &ctx, const Mesh &mesh, const Settings &s, const Part &part, const std::string &name) {
    const Built recast = build(ctx, mesh, s, part, false), ours = build(ctx, mesh, s, part, true);
    const rcCompactHeightfield &a = *recast.chf, &b = *ours.chf;
    std::printf("%s: %d by %d cells, %d spans, no border\n", name.c_str(), a.width, a.height, a.spanCount);
    std::printf("                 Recast  Gussetraft\n");
    const auto row = [](const char *what, int one, int other) { std::printf("  %-12s %8d %11d\n", what, one, other); };
    row("max distance", a.maxDistance, b.maxDistance);
    row("max regions", a.maxRegions, b.maxRegions);
    row("contours", recast.contours->nconts, ours.contours->nconts);
    row("vertices", recast.polygons->nverts, ours.polygons->nverts);
    row("polygons", recast.polygons->npolys, ours.polygons->npolys);
    const Differences d = differences(recast, ours);
    std::printf("  %d distances and %d ids differ; %d polygons are Recast's alone, %d Gussetraft's\n", d.distances, d.ids, d.gone, d.come);
}

// A line a tile, and below it where the two differ.
void compareTiles(Context &ctx, const Mesh &mesh, const Settings &s, const std::vector<Part> &tiles, const std::string &name) {
    std::printf("%s: %zu tiles of %d by %d cells, border %d; each with Recast and with Gussetraft\n", name.c_str(), tiles.size(), s.tile, s.tile, s.border());
    std::printf("tile      spans  max regions   contours    polygons\n");
    Differences all;
    for (const Part &part : tiles) {
        const Built recast = build(ctx, mesh, s, part, false), ours = build(ctx, mesh, s, part, true);
        std::printf("%-8s %6d %6d %5d %5d %4d %6d %4d\n", part.name.c_str() + 1, ours.chf->spanCount, recast.chf->maxRegions, ours.chf->maxRegions, recast.contours->nconts,
                    ours.contours->nconts, recast.polygons->npolys, ours.polygons->npolys);
        const Differences d = differences(recast, ours);
        all.distances += d.distances, all.ids += d.ids, all.gone += d.gone, all.come += d.come;
    }
    std::printf("%d distances and %d ids differ; %d polygons are Recast's alone, %d Gussetraft's\n", all.distances, all.ids, all.gone, all.come);
}

// ---- the command

float length(const char *word, const char *value) {
    char *end;
    const float number = std::strtof(value, &end);
    if (end == value || *end != '\0' || !(number > 0) || !std::isfinite(number)) throw Usage(std::string(word) + " takes a number above 0, not " + value);
    return number;
}

int whole(const char *word, const char *value, int most) {
    char *end;
    const long number = std::strtol(value, &end, 10);
    if (end == value || *end != '\0' || number < 1 || number > most) throw Usage(std::string(word) + " takes a number from 1 to " + std::to_string(most) + ", not " + value);
    return static_cast<int>(number);
}

int command(int words, char **word) {
    Settings s;
    std::string path, folder;
    const std::map<std::string, float Settings::*> lengths = {{"--cell", &Settings::cell},          {"--cell-height", &Settings::cellHeight}, {"--agent-height", &Settings::agentHeight},
                                                              {"--agent-radius", &Settings::agentRadius}, {"--agent-climb", &Settings::agentClimb}, {"--slope", &Settings::slope}};
    const std::map<std::string, int Settings::*> numbers = {{"--tile", &Settings::tile}, {"--region", &Settings::region}, {"--merge", &Settings::merge}};
    for (int i = 1; i < words; i++) {
        const std::string option = word[i];
        if (option == "--help" || option == "-h") {
            std::fputs(help, stdout);
            return 0;
        }
        if (option.rfind("--", 0) != 0) {
            if (!path.empty()) throw Usage("one mesh at a time");
            path = option;
            continue;
        }
        if (i + 1 == words) throw Usage(option + " is unknown or lacks its value");
        const char *value = word[++i];
        if (option == "--dump") folder = value;
        else if (const auto of = lengths.find(option); of != lengths.end()) s.*(of->second) = length(word[i - 1], value);
        else if (const auto number = numbers.find(option); number != numbers.end()) s.*(number->second) = whole(word[i - 1], value, 255);
        else throw Usage(option + " is unknown");
    }
    if (path.empty()) throw Usage("no mesh named");
    if (s.tile + 2 * s.border() > 256) throw Usage("a tile has " + std::to_string(s.tile) + " cells and twice " + std::to_string(s.border()) + " of border: more than 256");
    std::string name = path.substr(path.find_last_of('/') + 1);
    name = name.substr(0, name.rfind('.'));

    Context ctx;
    const Mesh mesh = readMesh(path);
    if (!folder.empty()) return dump(ctx, mesh, s, folder, name);
    const std::vector<Part> all = parts(mesh, s);
    if (s.tile > 0) compareTiles(ctx, mesh, s, all, name);
    else compareWhole(ctx, mesh, s, all[0], name);
    return 0;
}

} // namespace

int main(int words, char **word) {
    try {
        return command(words, word);
    } catch (const Usage &e) {
        std::fprintf(stderr, "pipeline: %s; --help tells more\n", e.what());
        return 2;
    } catch (const std::exception &e) {
        std::fprintf(stderr, "pipeline: %s\n", e.what());
        return 1;
    }
}
