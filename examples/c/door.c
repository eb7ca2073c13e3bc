/* door: a door that opens and closes in an editor. Each time the stored lists are brought up to date, and only the rows reported are sent on.
 *
 * Two rooms with a wall between them, which has a door of two cells. The field of an open door and that of a closed one have the same connections:
 * closed, the door's area code is 0. */
#include "gussetraft.h"
#include <stdio.h>

enum { W = 19, H = 40, N = W * H, WALL = 9, DOOR = 20, DOOR_END = 21 };

static uint32_t index_of[N];
static uint8_t count[N], area[N], con[4 * N];
static uint16_t pass1[N], raw[N], blurred[N]; /* the lists that are kept */
static uint16_t sent[N];                      /* what the other side has of the blurred distances */

static void set_door(int open) {
    for (int z = DOOR; z <= DOOR_END; z++) area[WALL + z * W] = open ? 1 : 0;
}

/* One span a cell, connected to the cells beside it; the wall is spans of area 0. */
static void field(void) {
    static const int dx[4] = {-1, 0, 1, 0}, dz[4] = {0, 1, 0, -1};
    for (int z = 0; z < H; z++) {
        for (int x = 0; x < W; x++) {
            int c = x + z * W;
            index_of[c] = (uint32_t)c;
            count[c] = 1;
            area[c] = x == WALL ? 0 : 1;
            for (int d = 0; d < 4; d++) {
                int nx = x + dx[d], nz = z + dz[d];
                con[4 * c + d] = nx < 0 || nx >= W || nz < 0 || nz >= H ? GUSSETRAFT_NO_CONNECTION : 0;
            }
        }
    }
}

static int refused(uint16_t number) {
    printf("refused %u\n(%s)\n", (unsigned)number, gussetraft_refusal_text(number));
    return 1;
}

/* Sends rows first to last: here, into a list. */
static void send_rows(int first, int last) {
    for (int s = first * W; s < (last + 1) * W; s++) sent[s] = blurred[s];
}

/* Whether lists kept and sent, and max_distance, are those of a build from nothing. */
static int as_built(uint16_t max_distance) {
    static uint16_t p[N], r[N], b[N];
    gussetraft_distance_answer got = gussetraft_build_distance_stages(
        W, H, index_of, N, count, N, area, N, con, 4 * N, p, N, r, N, b, N);
    for (int s = 0; s < N; s++) {
        if (p[s] != pass1[s] || r[s] != raw[s] || b[s] != blurred[s] || b[s] != sent[s]) return 0;
    }
    return !got.refusal && got.max_distance == max_distance;
}

int main(void) {
    field();
    gussetraft_distance_answer built = gussetraft_build_distance_stages(
        W, H, index_of, N, count, N, area, N, con, 4 * N, pass1, N, raw, N, blurred, N);
    if (built.refusal) return refused(built.refusal);
    send_rows(0, H - 1);
    printf("closed: max_distance %u, all %d rows sent\n", (unsigned)built.max_distance, H);

    for (int turn = 1; turn <= 4; turn++) {
        int open = turn % 2;
        set_door(open);
        gussetraft_refresh_answer got = gussetraft_refresh_distance_field(
            W, H, index_of, N, count, N, area, N, con, 4 * N, WALL, DOOR, WALL, DOOR_END, pass1, N, raw, N, blurred, N);
        if (got.refusal) return refused(got.refusal);
        send_rows(got.blur_first, got.blur_last);
        printf("%s: max_distance %u, rows %u to %u sent, %s\n", open ? "open" : "closed", (unsigned)got.max_distance, (unsigned)got.blur_first,
            (unsigned)got.blur_last, as_built(got.max_distance) ? "as built from nothing" : "NOT as built from nothing");
    }

    /* a rectangle past the last row: told by its number, and the lists stay */
    gussetraft_refresh_answer out = gussetraft_refresh_distance_field(
        W, H, index_of, N, count, N, area, N, con, 4 * N, WALL, DOOR, WALL, H, pass1, N, raw, N, blurred, N);
    refused(out.refusal);
    return as_built(built.max_distance) ? 0 : 1;
}
