/* Gussetraft in the place of rcBuildDistanceField and rcBuildRegions of C++ Recast. Header only, C++17; link with libgussetraft.a.
 *
 *     rcBuildDistanceField(ctx, chf)                         gussetraft::buildDistanceField(ctx, chf)
 *     rcBuildRegions(ctx, chf, border, least, merge)         gussetraft::buildRegions(ctx, chf, border, least, merge)
 *
 * Everything before and after stays Recast's: rasterising, compacting, eroding, contours, polygon mesh. The two can also be mixed, Recast's
 * distances with these regions or the other way round.
 *
 * What is refused: each function answers false, logs the number and its meaning through the context (RC_LOG_ERROR), and leaves the heightfield as it was
 * before the call, distances and regions of an earlier call included. (Recast's own functions have freed chf.dist by then.) The limits are the library's:
 * 256 by 256 cells, 65,000 spans, 63 spans a cell. A heightfield of Recast's own is not refused for its connections where walkableClimb is at most
 * walkableHeight; where it is greater, a span may be joined to one that is not joined to it, which is refused 6.
 *
 * Memory is Recast's: rcAlloc and rcFree, so a custom allocator sees it all. A context is needed, as Recast needs one (rcAssert). */
#ifndef GUSSETRAFT_RECAST_HPP
#define GUSSETRAFT_RECAST_HPP

#include "gussetraft.h"

#include "Recast.h"
#include "RecastAlloc.h"
#include "RecastAssert.h"

#include <cstddef>
#include <cstdint>
#include <cstring>

namespace gussetraft {

namespace detail {

// The library's own limits. They are asked for here too, before lists are made and numbers take 16 bits.
constexpr int mostSide = 256;
constexpr int mostSpans = 65000;

// A list from Recast's allocator, which is given back with it. It has an element even where none is asked for: the library wants a pointer for every list.
template <typename T> class List {
public:
    explicit List(std::size_t length = 0, rcAllocHint hint = RC_ALLOC_TEMP) : m_at(static_cast<T *>(rcAlloc(sizeof(T) * (length > 0 ? length : 1), hint))) {}
    ~List() { rcFree(m_at); }
    List(const List &) = delete;
    List &operator=(const List &) = delete;

    T *at() const { return m_at; }
    T &operator[](std::size_t place) const { return m_at[place]; }
    explicit operator bool() const { return m_at != nullptr; }

    // Hands the list on: the caller frees it, by rcFree.
    T *release() {
        T *at = m_at;
        m_at = nullptr;
        return at;
    }

private:
    T *m_at;
};

inline bool refused(rcContext *ctx, const char *who, unsigned number) {
    ctx->log(RC_LOG_ERROR, "%s: refused %u: %s", who, number, gussetraft_refusal_text(static_cast<std::uint16_t>(number)));
    return false;
}

inline bool outOfMemory(rcContext *ctx, const char *who, const char *what, int number) {
    ctx->log(RC_LOG_ERROR, "%s: Out of memory '%s' (%d).", who, what, number);
    return false;
}

// Whether the heightfield's numbers fit the library's, so that none of them is cut short on the way.
inline bool fits(rcContext *ctx, const char *who, const rcCompactHeightfield &chf) {
    if (chf.width < 0 || chf.height < 0 || chf.spanCount < 0) {
        ctx->log(RC_LOG_ERROR, "%s: a width, height or number of spans below 0 (%d, %d, %d)", who, chf.width, chf.height, chf.spanCount);
        return false;
    }
    if (chf.width > mostSide || chf.height > mostSide) return refused(ctx, who, GUSSETRAFT_TOO_WIDE);
    if (chf.spanCount > mostSpans) return refused(ctx, who, GUSSETRAFT_TOO_MANY);
    if ((chf.width * chf.height > 0 && !chf.cells) || (chf.spanCount > 0 && (!chf.spans || !chf.areas))) {
        ctx->log(RC_LOG_ERROR, "%s: the heightfield has no cells, spans or areas", who);
        return false;
    }
    return true;
}

// The lists of a heightfield that fits, as the library takes them. Directions are the same on both sides.
struct Field {
    explicit Field(const rcCompactHeightfield &chf)
        : cells(static_cast<std::size_t>(chf.width) * static_cast<std::size_t>(chf.height)), spans(static_cast<std::size_t>(chf.spanCount)),
          w(static_cast<std::uint16_t>(chf.width)), h(static_cast<std::uint16_t>(chf.height)), index(cells), count(cells), area(spans), con(4 * spans) {
        if (!made()) return;
        for (std::size_t c = 0; c < cells; c++) {
            index[c] = chf.cells[c].index;
            count[c] = static_cast<std::uint8_t>(chf.cells[c].count);
        }
        if (spans > 0) std::memcpy(area.at(), chf.areas, spans);
        for (std::size_t s = 0; s < spans; s++) {
            for (int d = 0; d < 4; d++) {
                const int layer = rcGetCon(chf.spans[s], d);
                con[4 * s + static_cast<std::size_t>(d)] = layer == RC_NOT_CONNECTED ? GUSSETRAFT_NO_CONNECTION : static_cast<std::uint8_t>(layer);
            }
        }
    }

    bool made() const { return index && count && area && con; }

    std::size_t cells, spans;
    std::uint16_t w, h;
    List<std::uint32_t> index;
    List<std::uint8_t> count, area, con;
};

// A size as the library takes it. No field has more than 65,000 spans or 256 columns, so every number from 65,535 on says the same.
inline std::uint16_t size16(int size) { return size > 0xffff ? std::uint16_t(0xffff) : static_cast<std::uint16_t>(size); }

} // namespace detail

/* A workspace that is kept from call to call: 128 numbers of 16 bits a span of the largest heightfield so far, 16.6 MB at most. A fresh one for each call
 * costs more time than the work itself (docs/PERFORMANCE.md). One thread at a time may use it. */
class Workspace {
public:
    Workspace() = default;
    ~Workspace() { rcFree(m_at); }
    Workspace(const Workspace &) = delete;
    Workspace &operator=(const Workspace &) = delete;

    /* Makes room for so many spans; false where there is no memory for it, and the workspace is then as it was. */
    bool reserve(std::size_t spans) {
        const std::size_t length = GUSSETRAFT_WORKSPACE_LEN(spans);
        if (length <= m_length) return true;
        void *at = rcAlloc(sizeof(std::uint16_t) * length, RC_ALLOC_PERM);
        if (!at) return false;
        rcFree(m_at);
        m_at = static_cast<std::uint16_t *>(at);
        m_length = length;
        return true;
    }

    std::uint16_t *at() const { return m_at; }

private:
    std::uint16_t *m_at = nullptr;
    std::size_t m_length = 0;
};

/* Builds the distance field: chf.dist, one number a span from rcAlloc, in the place of an earlier one, and chf.maxDistance. Both are what
 * rcBuildDistanceField gives, on every heightfield that is not refused. */
inline bool buildDistanceField(rcContext *ctx, rcCompactHeightfield &chf) {
    rcAssert(ctx);
    const char *const who = "gussetraft::buildDistanceField";
    rcScopedTimer timer(ctx, RC_TIMER_BUILD_DISTANCEFIELD);
    if (!detail::fits(ctx, who, chf)) return false;

    const detail::Field field(chf);
    if (!field.made()) return detail::outOfMemory(ctx, who, "field", chf.spanCount);
    const std::size_t n = field.spans;
    const detail::List<std::uint16_t> raw(n);
    if (!raw) return detail::outOfMemory(ctx, who, "raw", chf.spanCount);
    detail::List<unsigned short> dist(n, RC_ALLOC_PERM);
    if (!dist) return detail::outOfMemory(ctx, who, "dist", chf.spanCount);

    const gussetraft_distance_answer answer = gussetraft_build_distance_field(
        field.w, field.h, field.index.at(), field.cells, field.count.at(), field.cells, field.area.at(), n, field.con.at(), 4 * n, raw.at(), n, dist.at(), n);
    if (answer.refusal != 0) return detail::refused(ctx, who, answer.refusal);
    rcFree(chf.dist);
    chf.dist = dist.release();
    chf.maxDistance = answer.max_distance;
    return true;
}

/* Builds the regions: chf.spans[..].reg, chf.maxRegions and chf.borderSize. The distance field comes before it, as in Recast; without one it is refused.
 *
 * Which numbers it gives: those of the compared form (gussetraft_build_regions_compared), which are Recast's own: ids from 1, or from 5 with a
 * border, maxRegions the last number given, RC_BORDER_REG with 1 to 4 on the painted border.
 *
 * - Without a border reg and maxRegions are what rcBuildRegions gives.
 * - With a border the painted spans are Recast's, and the other ids and maxRegions can differ: a flood that sees the border beside it looks no further in
 *   rerecast and here, and goes on looking in Recast (docs/DIFFERENCES.md).
 *
 * The two areas are numbers of spans, as in Recast; a size below 0, which Recast's own page rules out, is refused. Overlapping regions are logged as
 * Recast logs them (RC_LOG_ERROR) and are no failure; contours cut short after 40,000 steps, which Recast does not tell, are a warning. */
inline bool buildRegions(rcContext *ctx, rcCompactHeightfield &chf, int borderSize, int minRegionArea, int mergeRegionArea, Workspace &workspace) {
    rcAssert(ctx);
    const char *const who = "gussetraft::buildRegions";
    rcScopedTimer timer(ctx, RC_TIMER_BUILD_REGIONS);
    if (!detail::fits(ctx, who, chf)) return false;
    if (borderSize < 0 || minRegionArea < 0 || mergeRegionArea < 0) {
        ctx->log(RC_LOG_ERROR, "%s: a border size or area below 0 (%d, %d, %d)", who, borderSize, minRegionArea, mergeRegionArea);
        return false;
    }
    if (!chf.dist) {
        ctx->log(RC_LOG_ERROR, "%s: there is no distance field: buildDistanceField comes first", who);
        return false;
    }

    const detail::Field field(chf);
    if (!field.made()) return detail::outOfMemory(ctx, who, "field", chf.spanCount);
    const std::size_t n = field.spans;
    const detail::List<std::uint16_t> ids(n);
    if (!ids) return detail::outOfMemory(ctx, who, "ids", chf.spanCount);
    if (!workspace.reserve(n)) return detail::outOfMemory(ctx, who, "workspace", chf.spanCount);

    const gussetraft_region_answer answer = gussetraft_build_regions_compared(
        field.w, field.h, field.index.at(), field.cells, field.count.at(), field.cells, field.area.at(), n, field.con.at(), 4 * n, chf.dist, n, chf.maxDistance,
        detail::size16(borderSize), detail::size16(minRegionArea), detail::size16(mergeRegionArea),
        // no more of it than is needed: a call leaves zeros in all that it is lent
        workspace.at(), GUSSETRAFT_WORKSPACE_LEN(n), ids.at(), n);
    if (answer.refusal != 0) return detail::refused(ctx, who, answer.refusal);
    if (answer.overlaps > 0) ctx->log(RC_LOG_ERROR, "%s: %u overlapping regions.", who, unsigned(answer.overlaps));
    if (answer.cut > 0) ctx->log(RC_LOG_WARNING, "%s: %u regions have a contour that was cut short after 40,000 steps.", who, unsigned(answer.cut));
    for (std::size_t s = 0; s < n; s++) chf.spans[s].reg = ids[s];
    chf.maxRegions = answer.max_region;
    chf.borderSize = borderSize;
    return true;
}

/* The same over a workspace of its own, which is given back after the call. */
inline bool buildRegions(rcContext *ctx, rcCompactHeightfield &chf, int borderSize, int minRegionArea, int mergeRegionArea) {
    Workspace workspace;
    return buildRegions(ctx, chf, borderSize, minRegionArea, mergeRegionArea, workspace);
}

} // namespace gussetraft

#endif
