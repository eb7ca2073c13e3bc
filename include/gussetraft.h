/* Gussetraft: the watershed part of a navigation library, proved. Link with the archive of your target (tools/targets; for x86-64 Linux also
 * tools/archive); from outside it calls memset alone, on macOS bzero.
 *
 * A field is w by h cells, row by row (x fastest), each an index and a count, and n spans, n being area_len: an area byte (0: not
 * walkable) and four connection bytes each, in direction order (-1,0), (0,1), (1,0), (0,-1); GUSSETRAFT_NO_CONNECTION is none,
 * otherwise a layer of the cell across. A nonempty cell's index is the sum of the counts before it.
 *
 * Every function takes any numbers in the lists, and ends. Bad input is refused with a number, and every lent list then holds what it
 * held before. What is answered otherwise is in docs/01-scope.md, and proved (docs/PROOFS.md).
 *
 * Who owns what: the caller owns every list before, during and after a call. Nothing is allocated, freed or kept, and there is no state
 * between calls, so calls on different lists may run on several threads at once.
 *
 * What a caller in C must see to: each pointer has as many elements as the length beside it says, is aligned for its type and is not
 * null, also where the length is 0; a list that a call writes overlaps no other list of that call.
 */
#ifndef GUSSETRAFT_H
#define GUSSETRAFT_H

#include <stddef.h>
#include <stdint.h>

#ifdef __cplusplus
extern "C" {
#endif

/* The connection byte of a side that leads nowhere. */
#define GUSSETRAFT_NO_CONNECTION 255

/* The bit of a painted border's ids: 1 to 4 beside it for the left columns, the right columns, the low rows and the high rows. */
#define GUSSETRAFT_BORDER 0x8000

/* The least number of elements of the workspace, for n spans. */
#define GUSSETRAFT_WORKSPACE_LEN(n) ((size_t)128 * (size_t)(n) + (size_t)4096)

/* Refusals, looked for in this order, but 12 and 13 last; the first that applies is given. 7, 8, 12 and 13 are given by the two region functions and by
 * gussetraft_explain_span alone, but for gussetraft_build_rooms, which gives 1 to 7 and 12; 14 by gussetraft_explain_span alone; 9 and 10 by
 * gussetraft_measure_room alone, which gives 1 to 6 beside them; 11 and 31 by gussetraft_refresh_distance_field alone, 27 by gussetraft_mend alone,
 * which gives 1 to 4 beside it; 20 and 21 by the loading of a file alone, which gives 3 beside them. A refused call changes nothing that was lent, but
 * 12 and 13 leave a workspace of zeros, and a refused file leaves the field as far as it was read. */
enum {
    GUSSETRAFT_TOO_WIDE = 1,     /* w or h above 256 */
    GUSSETRAFT_TOO_MANY = 2,     /* n above 65,000 */
    GUSSETRAFT_WRONG_LENGTH = 3, /* a list has the wrong length: w*h (index, count), n (pass1, raw, blurred, dist, ids, trail) or 4*n (con) */
    GUSSETRAFT_WRONG_CELLS = 4,  /* a cell's count is above 63, a nonempty cell's index is wrong, or the counts do not sum to n */
    GUSSETRAFT_WRONG_REACH = 5,  /* a connection leaves the grid or names a layer that the cell lacks */
    GUSSETRAFT_WRONG_BACK = 6,   /* a connection is not answered from the other side */
    GUSSETRAFT_TOO_SHORT = 7,    /* workspace_len is below GUSSETRAFT_WORKSPACE_LEN(n) */
    GUSSETRAFT_TOO_FAR = 8,      /* max_distance is above 510, or a distance is above max_distance */
    GUSSETRAFT_WRONG_SCALE = 9,  /* k is 0 or above 256 */
    GUSSETRAFT_WRONG_IDS = 10,   /* ids are not one a span, or one is above max_region and not flagged */
    GUSSETRAFT_WRONG_RECT = 11,  /* the rectangle is empty or not in the field */
    GUSSETRAFT_NO_IDS = 12,      /* a successful flood would make the next id 0x8000, or there are more than 32,767 plain rooms; never with at most
                                  * 32,000 spans */
    GUSSETRAFT_NO_SUM = 13,      /* a source distance in expansion would exceed 65,535; never with at most 32,000 spans */
    GUSSETRAFT_NO_SUCH_SPAN = 14, /* the span's number is not below n */
    GUSSETRAFT_MALFORMED = 20,   /* a file: unknown kind, a record out of place, cut short, bytes after the end */
    GUSSETRAFT_TOO_LARGE = 21,   /* a file: more cells (at the header) or spans (at the cell that passes it) than the loader takes */
    GUSSETRAFT_NO_ROOM = 27,     /* there are more changes than places in their list */
    GUSSETRAFT_WRONG_STORED = 31 /* a stored pass 1 or raw value is above 510 */
};

/* Refusals of a stored result, looked for in this order over the whole file. Nothing is written then. */
enum {
    GUSSETRAFT_RESULT_MALFORMED = 22,   /* an unknown kind, cut short, no end, bytes after the end, a run of length 0, or the other form */
    GUSSETRAFT_RESULT_NOT_LONGEST = 23, /* a run goes on with the id of the one before it, which is shorter than 65,535 spans */
    GUSSETRAFT_RESULT_NO_ROOM = 24,     /* the output would exceed the list lent */
    GUSSETRAFT_RESULT_WRONG_NUMBER = 25, /* a kind 7 record has a wrong number of spans; looked for between 23 and 24 */
    GUSSETRAFT_RESULT_BEYOND = 26       /* the span is beyond the end; looked for last */
};

/* What the number of a refusal means; of 0, "not refused". The text is constant. */
static inline const char *gussetraft_refusal_text(uint16_t refusal) {
    switch (refusal) {
    case 0: return "not refused";
    case GUSSETRAFT_TOO_WIDE: return "the width or the height is above 256";
    case GUSSETRAFT_TOO_MANY: return "there are more than 65,000 spans";
    case GUSSETRAFT_WRONG_LENGTH: return "a list other than the workspace has the wrong length";
    case GUSSETRAFT_WRONG_CELLS: return "a cell's count is above 63, its index is wrong, or the counts do not sum to the number of spans";
    case GUSSETRAFT_WRONG_REACH: return "a connection leaves the grid or names a layer that the cell lacks";
    case GUSSETRAFT_WRONG_BACK: return "a connection is not answered from the other side";
    case GUSSETRAFT_TOO_SHORT: return "the workspace is shorter than 128 numbers a span and 4,096";
    case GUSSETRAFT_TOO_FAR: return "the greatest distance is above 510, or a distance is above the greatest";
    case GUSSETRAFT_WRONG_SCALE: return "the scale is 0 or above 256";
    case GUSSETRAFT_WRONG_IDS: return "the ids are not one a span, or one is above the greatest and not flagged";
    case GUSSETRAFT_WRONG_RECT: return "the rectangle is empty or not in the field";
    case GUSSETRAFT_NO_IDS: return "ids run out: the next would be 0x8000";
    case GUSSETRAFT_NO_SUM: return "a source distance in expansion would exceed 65,535";
    case GUSSETRAFT_NO_SUCH_SPAN: return "there is no span of this number";
    case GUSSETRAFT_MALFORMED: return "the file is malformed: unknown kind, a record out of place, cut short, or bytes after the end";
    case GUSSETRAFT_TOO_LARGE: return "the file's field has more cells or spans than the loader takes";
    case GUSSETRAFT_WRONG_STORED: return "a stored pass 1 or raw value is above 510";
    case GUSSETRAFT_NO_ROOM: return "there are more changes than places in their list";
    case GUSSETRAFT_RESULT_MALFORMED: return "the stored result is malformed";
    case GUSSETRAFT_RESULT_NOT_LONGEST: return "the runs of the stored result are not the longest";
    case GUSSETRAFT_RESULT_NO_ROOM: return "the output would exceed its list";
    case GUSSETRAFT_RESULT_WRONG_NUMBER: return "a number of spans in the stored result is wrong";
    case GUSSETRAFT_RESULT_BEYOND: return "the span is beyond the end";
    default: return "no such refusal";
    }
}

/* refusal: 0, or the number of the refusal; max_distance, the greatest raw distance: 0 where refused. */
typedef struct {
    uint16_t refusal;
    uint16_t max_distance;
} gussetraft_distance_answer;

/* Writes raw and blurred distances, one of each a span. A length is a number of elements.
 *
 * A raw distance is the cost of some chain of moves to a span that has fewer than four neighbours of its own area: 2 for a move to a
 * neighbour, 3 for one to a corner neighbour. With one span a cell it is the cost of the cheapest such chain; where cells have several
 * spans it can be more, never less. A blurred distance is a mean of raw ones, at most max_distance. See docs/DISTANCE.md. */
gussetraft_distance_answer gussetraft_build_distance_field(
    uint16_t w, uint16_t h,
    const uint32_t *index, size_t index_len,
    const uint8_t *count, size_t count_len,
    const uint8_t *area, size_t area_len,
    const uint8_t *con, size_t con_len,
    uint16_t *raw, size_t raw_len,
    uint16_t *blurred, size_t blurred_len);

/* As gussetraft_build_distance_field, and writes the values of pass 1 too: the three lists that gussetraft_refresh_distance_field takes. */
gussetraft_distance_answer gussetraft_build_distance_stages(
    uint16_t w, uint16_t h,
    const uint32_t *index, size_t index_len,
    const uint8_t *count, size_t count_len,
    const uint8_t *area, size_t area_len,
    const uint8_t *con, size_t con_len,
    uint16_t *pass1, size_t pass1_len,
    uint16_t *raw, size_t raw_len,
    uint16_t *blurred, size_t blurred_len);

/* refusal: 0, or the number of the refusal; max_distance; and the first and the last row redone in each stage, which are the only rows of its
 * list that can have changed. All are 0 where refused. */
typedef struct {
    uint16_t refusal;
    uint16_t max_distance;
    uint16_t pass1_first, pass1_last;
    uint16_t pass2_first, pass2_last;
    uint16_t blur_first, blur_last;
} gussetraft_refresh_answer;

/* The same with the answer's eight numbers, in their order, written to a list of eight; gives the refusal. A list of another length is refused 3,
 * and every list then holds what it held. Most callers use the function below. */
uint16_t gussetraft_refresh_distance_field_into(
    uint16_t w, uint16_t h,
    const uint32_t *index, size_t index_len,
    const uint8_t *count, size_t count_len,
    const uint8_t *area, size_t area_len,
    const uint8_t *con, size_t con_len,
    uint16_t x0, uint16_t z0, uint16_t x1, uint16_t z1,
    uint16_t *pass1, size_t pass1_len,
    uint16_t *raw, size_t raw_len,
    uint16_t *blurred, size_t blurred_len,
    uint16_t *answer, size_t answer_len);

/* After a change of area codes in columns x0 to x1 of rows z0 to z1, both ends included, connections unchanged: brings the three lists of
 * gussetraft_build_distance_stages up to date. Where they are those of the field before the change, or of a refresh after it, all three and
 * max_distance are then what a build of the changed field gives; only rows near the change are worked out again. With other lists the answer
 * is what the steps of docs/02-change-requests.md, A5, give. */
static inline gussetraft_refresh_answer gussetraft_refresh_distance_field(
    uint16_t w, uint16_t h,
    const uint32_t *index, size_t index_len,
    const uint8_t *count, size_t count_len,
    const uint8_t *area, size_t area_len,
    const uint8_t *con, size_t con_len,
    uint16_t x0, uint16_t z0, uint16_t x1, uint16_t z1,
    uint16_t *pass1, size_t pass1_len,
    uint16_t *raw, size_t raw_len,
    uint16_t *blurred, size_t blurred_len) {
    uint16_t a[8] = {0, 0, 0, 0, 0, 0, 0, 0};
    gussetraft_refresh_answer answer;
    gussetraft_refresh_distance_field_into(
        w, h, index, index_len, count, count_len, area, area_len, con, con_len, x0, z0, x1, z1, pass1, pass1_len, raw, raw_len, blurred, blurred_len, a, 8);
    answer.refusal = a[0];
    answer.max_distance = a[1];
    answer.pass1_first = a[2];
    answer.pass1_last = a[3];
    answer.pass2_first = a[4];
    answer.pass2_last = a[5];
    answer.blur_first = a[6];
    answer.blur_last = a[7];
    return answer;
}

/* refusal: 0, or the number of the refusal; max_region, the greatest id in use: the ids in use are exactly 1 to max_region, and those of
 * the border, and it is 0 where none is in use; overlaps: how many regions, before the merge, lie over themselves; cut: how many regions,
 * removed ones too and absorbed ones counted in their absorber, have a contour that was cut short, because the walk round it was not
 * back after 40,000 steps, so that the list of neighbours is partial (never one of at most 10,000 spans). All three are 0 where refused. */
typedef struct {
    uint16_t refusal;
    uint16_t max_region;
    uint16_t overlaps;
    uint16_t cut;
} gussetraft_region_answer;

/* Writes the region id of each span; 0 is none. dist and max_distance are the blurred distances and the number that
 * gussetraft_build_distance_field gives, or any others up to 510. What the workspace holds before does not matter; where the call is
 * not refused it holds zeros after, all of it (so too where it is refused 12 or 13). Keep one workspace for many calls, and lend of it what a
 * field needs: memory fresh from the system makes a call take about twice the time. The two areas are numbers of spans. */
gussetraft_region_answer gussetraft_build_regions(
    uint16_t w, uint16_t h,
    const uint32_t *index, size_t index_len,
    const uint8_t *count, size_t count_len,
    const uint8_t *area, size_t area_len,
    const uint8_t *con, size_t con_len,
    const uint16_t *dist, size_t dist_len,
    uint16_t max_distance,
    uint16_t border_size, uint16_t min_region_area, uint16_t merge_region_area,
    uint16_t *workspace, size_t workspace_len,
    uint16_t *ids, size_t ids_len);

/* The same in the compared form: the numbers of the Rust, for differential runs and for tables that were made with them. There records
 * without spans are numbered, too: the ids in use are exactly 1 (5 with a border) to max_region - 1, and those of the border. */
gussetraft_region_answer gussetraft_build_regions_compared(
    uint16_t w, uint16_t h,
    const uint32_t *index, size_t index_len,
    const uint8_t *count, size_t count_len,
    const uint8_t *area, size_t area_len,
    const uint8_t *con, size_t con_len,
    const uint16_t *dist, size_t dist_len,
    uint16_t max_distance,
    uint16_t border_size, uint16_t min_region_area, uint16_t merge_region_area,
    uint16_t *workspace, size_t workspace_len,
    uint16_t *ids, size_t ids_len);

/* Why a span has its number, or none: the first of these that applies. */
enum {
    GUSSETRAFT_NOT_WALKABLE = 1,  /* its area is 0 */
    GUSSETRAFT_PAINTED = 2,       /* the border paints it: strip */
    GUSSETRAFT_NEVER_REACHED = 3, /* no flood kept it, and no expansion reached it */
    GUSSETRAFT_FILTERED_OUT = 4,  /* the filter removed its region: group_count, least_area */
    GUSSETRAFT_FLOODED = 5,       /* a flood gave it its id: grown_id, trail, number */
    GUSSETRAFT_EXPANDED = 6       /* it took a neighbour's id: grown_id, from_span, trail, number */
};

/* What gussetraft_explain_span tells. Numbers that a reason does not have are 0, and all but the first where refused. */
typedef struct {
    uint16_t refusal;        /* 0, or the number of the refusal */
    uint16_t reason;         /* one of the six above */
    uint16_t strip;          /* 1 left columns, 2 right columns, 3 low rows, 4 high rows */
    uint16_t group_count;    /* how many spans the regions have that were gathered and held against the least area */
    uint16_t least_area;     /* min_region_area */
    uint16_t grown_id;       /* the id of its flood, before any merge */
    uint16_t from_span;      /* the span whose id it took */
    uint16_t trail_length;   /* how many ids the trail has */
    uint16_t number;         /* the id that gussetraft_build_regions gives it */
    uint16_t gave_back_id;   /* the id of the last flood that reached the span and gave it back, 0 for none; told with every reason */
    uint16_t objecting_span; /* the span whose other id made that flood give it back */
} gussetraft_reason;

/* gussetraft_explain_span with the answer's eleven numbers, in their order, written to a list of eleven; gives the refusal. A list of another length is
 * refused 3 (or 1 or 2, where that applies), and every list then holds what it held. Most callers use the function below. */
uint16_t gussetraft_explain_span_into(
    uint16_t w, uint16_t h,
    const uint32_t *index, size_t index_len,
    const uint8_t *count, size_t count_len,
    const uint8_t *area, size_t area_len,
    const uint8_t *con, size_t con_len,
    const uint16_t *dist, size_t dist_len,
    uint16_t max_distance,
    uint16_t border_size, uint16_t min_region_area, uint16_t merge_region_area,
    uint16_t *workspace, size_t workspace_len,
    uint32_t span,
    uint16_t *trail, size_t trail_len,
    uint16_t *answer, size_t answer_len);

/* Why has this span no room, or which has it and how? Tells what the rules did to one span in the build that gussetraft_build_regions makes of the same
 * lists and sizes; it takes as long as that build. trail has one number a span: the id of the span's flood, then each id that it became by a merge, to
 * the last, which numbers as `number`; zeros after it, and all zeros for the first four reasons. A flood that failed is told too, and its id may be
 * that of another flood afterwards.
 *
 * Refusals: 1 to 8, then 14, then 12 and 13. The workspace is that of gussetraft_build_regions; it holds zeros after an answer and after 12 and 13. Where
 * refused, trail holds what it held. */
static inline gussetraft_reason gussetraft_explain_span(
    uint16_t w, uint16_t h,
    const uint32_t *index, size_t index_len,
    const uint8_t *count, size_t count_len,
    const uint8_t *area, size_t area_len,
    const uint8_t *con, size_t con_len,
    const uint16_t *dist, size_t dist_len,
    uint16_t max_distance,
    uint16_t border_size, uint16_t min_region_area, uint16_t merge_region_area,
    uint16_t *workspace, size_t workspace_len,
    uint32_t span,
    uint16_t *trail, size_t trail_len) {
    uint16_t a[11] = {0, 0, 0, 0, 0, 0, 0, 0, 0, 0, 0};
    gussetraft_reason answer;
    gussetraft_explain_span_into(
        w, h, index, index_len, count, count_len, area, area_len, con, con_len, dist, dist_len, max_distance, border_size, min_region_area,
        merge_region_area, workspace, workspace_len, span, trail, trail_len, a, 11);
    answer.refusal = a[0];
    answer.reason = a[1];
    answer.strip = a[2];
    answer.group_count = a[3];
    answer.least_area = a[4];
    answer.grown_id = a[5];
    answer.from_span = a[6];
    answer.trail_length = a[7];
    answer.number = a[8];
    answer.gave_back_id = a[9];
    answer.objecting_span = a[10];
    return answer;
}

/* The most elements that a list of changes needs, for n spans: with so many gussetraft_mend never gives 27. */
#define GUSSETRAFT_CHANGES_LEN(n) ((size_t)12 * (size_t)(n))

/* refusal: 0, or the number of the refusal; count, how many connections were set to none: 0 where refused. */
typedef struct {
    uint32_t refusal;
    uint32_t count;
} gussetraft_mend_answer;

/* Mends a field that was edited by hand, whose connections are perhaps refused 5 or 6. A connection stays exactly if it leads to a span
 * that is there and is answered from it; every other becomes GUSSETRAFT_NO_CONNECTION, in con.
 *
 * Each change is listed, in the order of spans and, for a span, of directions: three numbers make a place, the span, the direction (0 to
 * 3) and the layer that was named, as changes[3 * k], changes[3 * k + 1] and changes[3 * k + 2] for change k, counted from 0. The list
 * has changes_len / 3 places; one or two elements left over are no place. What is past the last change keeps what it held.
 *
 * Refusals: 1 to 4, and then 27 exactly if there are more changes than places; nothing is written then. After a call that is not
 * refused the field is sound: none of 1 to 6 is given for its lists any more. A sound field comes back as it was, with no change. */
gussetraft_mend_answer gussetraft_mend(
    uint16_t w, uint16_t h,
    const uint32_t *index, size_t index_len,
    const uint8_t *count, size_t count_len,
    const uint8_t *area, size_t area_len,
    uint8_t *con, size_t con_len,
    uint16_t *changes, size_t changes_len);

/* refusal: 0, or the number of the refusal; max_region, the number of rooms and so the greatest id of one: 0 where refused. */
typedef struct {
    uint16_t refusal;
    uint16_t max_region;
} gussetraft_room_answer;

/* Plain rooms, with no watershed: one id for each set of walkable spans of one area that connections join, numbered from 1 in the order of
 * their first spans. The border is painted as gussetraft_build_regions paints it, and painted spans join nothing. Two walkable spans of one
 * area that are not painted have the same id exactly if a chain of such spans joins them; a span of area 0 has id 0.
 *
 * Refusals: 1 to 7, and then 12 where there are more than 32,767 rooms, which takes as many spans. The workspace is that of
 * gussetraft_build_regions and holds zeros after a call that is not refused, or is refused 12; ids then hold what they held. */
gussetraft_room_answer gussetraft_build_rooms(
    uint16_t w, uint16_t h,
    const uint32_t *index, size_t index_len,
    const uint8_t *count, size_t count_len,
    const uint8_t *area, size_t area_len,
    const uint8_t *con, size_t con_len,
    uint16_t border_size,
    uint16_t *workspace, size_t workspace_len,
    uint16_t *ids, size_t ids_len);

/* A field file that comes in pieces. The file holds records of one byte of kind and a body, numbers little-endian: 1 header (w, h, border size, least
 * area, merge area: 2 bytes each), 2 cell (count: 1 byte), 3 span (area and four connections: 5 bytes), 4 end (none). Order: header, each cell followed
 * by its spans, end.
 *
 * A loader is 17 numbers and owns nothing: it may be copied and stored, and goes from call to call beside the lists of the field. Any numbers in it are
 * taken. */
#define GUSSETRAFT_LOADER_LEN 17

typedef struct {
    uint32_t numbers[GUSSETRAFT_LOADER_LEN];
} gussetraft_loader;

/* refusal: 0, or the number of the refusal. position: where in the file, counted from 0, for 20 and 21, and 0 otherwise: the kind byte of the record at
 * fault, the first byte after the end record, or, for a file cut short, the number of bytes received. A place past 4,294,967,295 is given as that. */
typedef struct {
    uint32_t refusal;
    uint32_t position;
} gussetraft_load_answer;

/* The calls below with the loader's numbers in a list of GUSSETRAFT_LOADER_LEN; a list of another length is refused 3 and nothing changes. Most callers
 * use the functions after them. */
gussetraft_load_answer gussetraft_load_begin_into(uint32_t most_cells, uint32_t most_spans, uint32_t *loader, size_t loader_len);

gussetraft_load_answer gussetraft_load_piece_into(
    const uint8_t *piece, size_t piece_len,
    uint32_t *index, size_t index_len,
    uint8_t *count, size_t count_len,
    uint8_t *area, size_t area_len,
    uint8_t *con, size_t con_len,
    uint32_t *loader, size_t loader_len);

gussetraft_load_answer gussetraft_load_end_into(uint32_t *loader, size_t loader_len);

/* A loader before the first byte, for a field of at most so many cells and spans: more is refused 21. */
static inline gussetraft_loader gussetraft_load_begin(uint32_t most_cells, uint32_t most_spans) {
    gussetraft_loader loader = {{0}};
    gussetraft_load_begin_into(most_cells, most_spans, loader.numbers, GUSSETRAFT_LOADER_LEN);
    return loader;
}

/* The next piece of the file, of any length, 0 too. index and count have most_cells elements at least, area most_spans and con 4 * most_spans: a shorter
 * list is refused 3 and nothing changes. The field so far stands at the lists' beginnings; what is past it keeps what it held.
 *
 * However the file is cut, the loader, the lists and the answers are those of the whole file. After 20, 21 or a declared end every further call gives the
 * same answer and changes nothing. */
static inline gussetraft_load_answer gussetraft_load_piece(
    gussetraft_loader *loader,
    const uint8_t *piece, size_t piece_len,
    uint32_t *index, size_t index_len,
    uint8_t *count, size_t count_len,
    uint8_t *area, size_t area_len,
    uint8_t *con, size_t con_len) {
    return gussetraft_load_piece_into(
        piece, piece_len, index, index_len, count, count_len, area, area_len, con, con_len, loader->numbers, GUSSETRAFT_LOADER_LEN);
}

/* Declares the end of the file: a file is complete only then, and one that is not is refused 20. */
static inline gussetraft_load_answer gussetraft_load_end(gussetraft_loader *loader) {
    return gussetraft_load_end_into(loader->numbers, GUSSETRAFT_LOADER_LEN);
}

/* The file's numbers, once a declared end was not refused: the field is the first w*h elements of index and count, the first n of area and the first 4*n
 * of con, n being gussetraft_loaded_spans. */
static inline uint16_t gussetraft_loaded_w(const gussetraft_loader *loader) { return (uint16_t)loader->numbers[6]; }
static inline uint16_t gussetraft_loaded_h(const gussetraft_loader *loader) { return (uint16_t)loader->numbers[7]; }
static inline uint16_t gussetraft_loaded_border_size(const gussetraft_loader *loader) { return (uint16_t)loader->numbers[8]; }
static inline uint16_t gussetraft_loaded_min_region_area(const gussetraft_loader *loader) { return (uint16_t)loader->numbers[9]; }
static inline uint16_t gussetraft_loaded_merge_region_area(const gussetraft_loader *loader) { return (uint16_t)loader->numbers[10]; }
static inline uint32_t gussetraft_loaded_spans(const gussetraft_loader *loader) { return loader->numbers[12]; }

/* Stored results: the ids of a field's spans, in span order, as a file. Numbers are little-endian.
 *
 * The old form is a record of three bytes a span, 5 and the id, and the end record, the byte 4. The new form has runs of equal ids: a record of
 * five bytes each, 6, the id and the length, 1 to 65,535, every run as long as equal ids and that limit allow, and the end record. After
 * every 64 runs, also where the file then ends, it has a record of five bytes more, 7 and the number of spans so far. A result has one file of each
 * form, and each way back returns the very bytes.
 *
 * refusal: 0, or 22, 23 and 25 (gussetraft_unpack alone) or 24; length, how many bytes were written: 0 where refused. */
typedef struct {
    uint32_t refusal;
    uint64_t length;
} gussetraft_stored_answer;

/* The two functions below with the answer's two numbers, in their order, written to a list of two; they give the refusal. A list of another length
 * is refused 3, and every list then holds what it held. Most callers use the functions below. */
uint32_t gussetraft_pack_into(const uint8_t *in, size_t in_len, uint8_t *out, size_t out_len, uint64_t *answer, size_t answer_len);
uint32_t gussetraft_unpack_into(const uint8_t *in, size_t in_len, uint8_t *out, size_t out_len, uint64_t *answer, size_t answer_len);

/* A file of the old form into the new one. 24 exactly when the output would exceed out_len bytes; what is past the output keeps what it held.
 * The output is never more than 6 bytes a span and 1. An old file whose new form would need a number of spans above 4,294,967,295 is 22. */
static inline gussetraft_stored_answer gussetraft_pack(const uint8_t *in, size_t in_len, uint8_t *out, size_t out_len) {
    uint64_t a[2] = {0, 0};
    gussetraft_stored_answer answer;
    gussetraft_pack_into(in, in_len, out, out_len, a, 2);
    answer.refusal = (uint32_t)a[0];
    answer.length = a[1];
    return answer;
}

/* A file of the new form into the old one, likewise. The output has 3 bytes a span and 1. */
static inline gussetraft_stored_answer gussetraft_unpack(const uint8_t *in, size_t in_len, uint8_t *out, size_t out_len) {
    uint64_t a[2] = {0, 0};
    gussetraft_stored_answer answer;
    gussetraft_unpack_into(in, in_len, out, out_len, a, 2);
    answer.refusal = (uint32_t)a[0];
    answer.length = a[1];
    return answer;
}

/* The size record of one id: floor size in square metres, edges in metres, each exact; beside them the refusal, the area code of the id's
 * first span, and how many spans have the id. All are 0 where refused, and for an id that is flagged, has no spans or is not from 1 to
 * max_region. */
typedef struct {
    double floor;
    double x_least, x_past;
    double z_least, z_past;
    uint16_t refusal;
    uint16_t area;
    uint16_t count;
} gussetraft_room;

/* The same with the five sizes, in their order, written to a list of five, and refusal, area and count to a list of three; gives the refusal. A list
 * of another length is refused 3 (after 1 and 2), and both then hold what they held. Most callers use the function below. */
uint16_t gussetraft_measure_room_into(
    uint16_t w, uint16_t h,
    const uint32_t *index, size_t index_len,
    const uint8_t *count, size_t count_len,
    const uint8_t *area, size_t area_len,
    const uint8_t *con, size_t con_len,
    const uint16_t *ids, size_t ids_len,
    uint16_t max_region, uint16_t k, uint16_t id,
    double *sizes, size_t sizes_len,
    uint16_t *numbers, size_t numbers_len);

/* The size of a room of a finished result (ids and max_region as gussetraft_build_regions or gussetraft_build_rooms gives them), with cells of
 * side k/64 metre: the floor is count * k * k / 4096, an edge a cell number times k/64; x_least is the least column of the id's spans, x_past the
 * greatest and 1, z likewise.
 *
 * Refusals: 1 to 6; 9 for k 0 or above 256; 10 for ids that are not one a span, or hold one above max_region that is not flagged. */
static inline gussetraft_room gussetraft_measure_room(
    uint16_t w, uint16_t h,
    const uint32_t *index, size_t index_len,
    const uint8_t *count, size_t count_len,
    const uint8_t *area, size_t area_len,
    const uint8_t *con, size_t con_len,
    const uint16_t *ids, size_t ids_len,
    uint16_t max_region, uint16_t k, uint16_t id) {
    double s[5] = {0, 0, 0, 0, 0};
    uint16_t n[3] = {0, 0, 0};
    gussetraft_room room;
    gussetraft_measure_room_into(
        w, h, index, index_len, count, count_len, area, area_len, con, con_len, ids, ids_len, max_region, k, id, s, 5, n, 3);
    room.floor = s[0];
    room.x_least = s[1];
    room.x_past = s[2];
    room.z_least = s[3];
    room.z_past = s[4];
    room.refusal = n[0];
    room.area = n[1];
    room.count = n[2];
    return room;
}

/* refusal: 0, or the number of the refusal; id, of the span: 0 where refused; stretch, the one that was read, 64 runs each, counted from 0: 0 where
 * refused before one was chosen. */
typedef struct {
    uint32_t refusal;
    uint32_t id;
    uint32_t stretch;
} gussetraft_id_answer;

/* The two functions below with the answer's three numbers, in their order, written to a list of three; they give the refusal. A list of another
 * length is refused 3 and holds what it held. Most callers use the functions below. */
uint32_t gussetraft_id_at_into(const uint8_t *file, size_t file_len, uint32_t span, uint32_t *answer, size_t answer_len);
uint32_t gussetraft_id_at_whole_into(const uint8_t *file, size_t file_len, uint32_t span, uint32_t *answer, size_t answer_len);

/* The id of one span from a stored result of the new form. Reads the kind 7 records by halving and one stretch, no more. On every file that
 * gussetraft_id_at_whole accepts the two answers are equal, 26 included. On other files the answer may differ, and says which stretch was read. */
static inline gussetraft_id_answer gussetraft_id_at(const uint8_t *file, size_t file_len, uint32_t span) {
    uint32_t a[3] = {0, 0, 0};
    gussetraft_id_answer answer;
    gussetraft_id_at_into(file, file_len, span, a, 3);
    answer.refusal = a[0];
    answer.id = a[1];
    answer.stretch = a[2];
    return answer;
}

/* The full reader: the whole file is checked, 22, 23, 25, and then 26 is looked for. At 26 the stretch is the last. */
static inline gussetraft_id_answer gussetraft_id_at_whole(const uint8_t *file, size_t file_len, uint32_t span) {
    uint32_t a[3] = {0, 0, 0};
    gussetraft_id_answer answer;
    gussetraft_id_at_whole_into(file, file_len, span, a, 3);
    answer.refusal = a[0];
    answer.id = a[1];
    answer.stretch = a[2];
    return answer;
}

/* Every machine's C hands back 4 or 8 bytes in the same way, and more, or 6, in ways of its own: a larger answer is written to a lent list, and the
 * struct is made here, by an inline function. */
#if defined(__cplusplus) && (__cplusplus >= 201103L || defined(_MSC_VER))
#define GUSSETRAFT_BY_VALUE(type) static_assert(sizeof(type) == 4 || sizeof(type) == 8, "an answer by value has 4 or 8 bytes")
#elif defined(__STDC_VERSION__) && __STDC_VERSION__ >= 201112L
#define GUSSETRAFT_BY_VALUE(type) _Static_assert(sizeof(type) == 4 || sizeof(type) == 8, "an answer by value has 4 or 8 bytes")
#endif
#ifdef GUSSETRAFT_BY_VALUE
GUSSETRAFT_BY_VALUE(gussetraft_distance_answer);
GUSSETRAFT_BY_VALUE(gussetraft_region_answer);
GUSSETRAFT_BY_VALUE(gussetraft_mend_answer);
GUSSETRAFT_BY_VALUE(gussetraft_room_answer);
GUSSETRAFT_BY_VALUE(gussetraft_load_answer);
#endif

#ifdef __cplusplus
}
#endif

#endif
