/* record: the functions of gussetraft.h, each of which calls the library's own (renamed recorded_NAME by ./record) and keeps a record of the call in the
 * file that GUSSETRAFT_RECORD names: numbers, every list before and after, the answer. replay.c and replay.mjs make the same calls on other machines.
 *
 * The file, numbers little-endian: a line of text, then entries. Functions and lists are numbered from 0 as they come, and a list is stored once.
 *   'F'  a function: its name and its signature (calls.awk), each after a byte of length; a byte, how many bytes the answer has
 *   'L'  a list: a byte, how many bytes an element has; 4, how many elements; then stretches until they are complete: a byte, 0 for elements as they are
 *        and 1 for a first element and a step; 4 bytes, how many elements; the elements, or the two
 *   'C'  a call: 2 bytes, the function; for each parameter 4 bytes, a number, or 8, the lists before and after; the answer
 *   'E'  the end: 4 bytes, how many calls */
#include "gussetraft.h"
#include <stdio.h>
#include <stdlib.h>
#include <string.h>

static FILE *out;
static uint32_t functions, calls;
static const char *names[256];

/* The call that is being made: what stands in its entry, and where the numbers of its lists before it are. */
static uint8_t entry[512];
static size_t entry_len, next_list;
static size_t list_places[32];
static size_t lists_in_call;

static void stop(const char *why) {
    fprintf(stderr, "record: %s\n", why);
    abort();
}

static void put(const void *bytes, size_t len) {
    if (len > 0 && fwrite(bytes, 1, len, out) != len) stop("the record can not be written");
}

static void put_number(uint64_t number, size_t bytes) {
    uint8_t b[8];
    for (size_t i = 0; i < bytes; i++) b[i] = (uint8_t)(number >> (8 * i));
    put(b, bytes);
}

static void keep(const void *bytes, size_t len) {
    if (entry_len + len > sizeof entry) stop("a call with too many lists");
    memcpy(entry + entry_len, bytes, len);
    entry_len += len;
}

static void keep_number(uint64_t number, size_t bytes) {
    uint8_t b[8];
    for (size_t i = 0; i < bytes; i++) b[i] = (uint8_t)(number >> (8 * i));
    keep(b, bytes);
}

static void ends(void) {
    put_number('E', 1);
    put_number(calls, 4);
    if (fclose(out) != 0) stop("the record can not be written");
}

static void begins(void) {
    static const char line[] = "gussetraft calls 1\n";
    const char *name = getenv("GUSSETRAFT_RECORD");
    if (name == NULL) stop("GUSSETRAFT_RECORD names no file");
    out = fopen(name, "wb");
    if (out == NULL) stop("the file of GUSSETRAFT_RECORD can not be written");
    put(line, sizeof line - 1);
    atexit(ends);
}

/* Lists that are stored, by their hash: a list that comes again is its number. */
struct stored {
    uint64_t hash;
    uint32_t number; /* 0 for none, otherwise one more than its number */
};
static struct stored *table;
static size_t table_len, lists;

static uint64_t hash_of(const uint8_t *bytes, size_t len, size_t element) {
    uint64_t hash = 0xcbf29ce484222325u ^ (element << 56) ^ len;
    for (; len >= 8; bytes += 8, len -= 8) {
        uint64_t word;
        memcpy(&word, bytes, 8);
        hash = (hash ^ word) * 0x9e3779b97f4a7c15u;
        hash ^= hash >> 29;
    }
    for (; len > 0; bytes++, len--) hash = (hash ^ *bytes) * 0x100000001b3u;
    return hash ^ hash >> 32;
}

static struct stored *place_of(uint64_t hash) {
    size_t at = (size_t)hash & (table_len - 1);
    while (table[at].number != 0 && table[at].hash != hash) at = (at + 1) & (table_len - 1);
    return &table[at];
}

static void grow(void) {
    struct stored *old = table;
    size_t old_len = table_len;
    table_len = old_len == 0 ? 1024 : 2 * old_len;
    table = calloc(table_len, sizeof *table);
    if (table == NULL) stop("no memory");
    for (size_t i = 0; i < old_len; i++) {
        if (old[i].number != 0) *place_of(old[i].hash) = old[i];
    }
    free(old);
}

static uint64_t element_at(const uint8_t *bytes, size_t at, size_t element) {
    uint64_t number = 0;
    memcpy(&number, bytes + at * element, element);
    return number;
}

static void put_elements(const uint8_t *bytes, size_t first, size_t past, size_t element) {
    if (past == first) return;
    put_number(0, 1);
    put_number(past - first, 4);
    put(bytes + first * element, (past - first) * element);
}

/* Workspaces are long and hold zeros or a progression: stretches of equal steps are stored as two numbers. */
static void put_list(const uint8_t *bytes, size_t len, size_t element) {
    uint64_t mask = element == 8 ? UINT64_MAX : ((uint64_t)1 << (8 * element)) - 1;
    size_t plain = 0, at = 0;
    put_number('L', 1);
    put_number(element, 1);
    put_number(len, 4);
    while (at < len) {
        size_t past = at + 1;
        uint64_t last = element_at(bytes, at, element), step = 0;
        if (past < len) {
            uint64_t next = element_at(bytes, past, element);
            step = (next - last) & mask;
            do {
                last = next;
                past++;
                if (past == len) break;
                next = element_at(bytes, past, element);
            } while (((next - last) & mask) == step);
        }
        if (past - at >= 16) {
            put_elements(bytes, plain, at, element);
            put_number(1, 1);
            put_number(past - at, 4);
            put_number(element_at(bytes, at, element), element);
            put_number(step, element);
            plain = past;
        }
        at = past - at >= 16 || past == len ? past : past - 1;
    }
    put_elements(bytes, plain, len, element);
}

static uint32_t list_number(const void *list, size_t len, size_t element) {
    uint64_t hash;
    struct stored *place;
    if (len > UINT32_MAX) stop("a list that is too long");
    if (2 * lists + 2 > table_len) grow();
    hash = hash_of(list, len * element, element);
    place = place_of(hash);
    if (place->number == 0) {
        put_list(list, len, element);
        place->hash = hash;
        place->number = (uint32_t)++lists;
    }
    return place->number - 1;
}

static void call_begins(const char *name, const char *signature, size_t answer) {
    uint32_t function = 0;
    if (out == NULL) begins();
    while (function < functions && strcmp(names[function], name) != 0) function++;
    if (function == functions) {
        if (functions == sizeof names / sizeof *names) stop("too many functions");
        names[functions++] = name;
        put_number('F', 1);
        put_number(strlen(name), 1);
        put(name, strlen(name));
        put_number(strlen(signature), 1);
        put(signature, strlen(signature));
        put_number(answer, 1);
    }
    entry_len = next_list = lists_in_call = 0;
    keep_number('C', 1);
    keep_number(function, 2);
}

static void number_before(uint32_t number) { keep_number(number, 4); }

static void list_before(const void *list, size_t len, size_t element) {
    if (lists_in_call == sizeof list_places / sizeof *list_places) stop("a call with too many lists");
    keep_number(list_number(list, len, element), 4);
    list_places[lists_in_call++] = entry_len;
    keep_number(0, 4);
}

static void list_after(const void *list, size_t len, size_t element) {
    uint32_t number = list_number(list, len, element);
    for (size_t i = 0; i < 4; i++) entry[list_places[next_list] + i] = (uint8_t)(number >> (8 * i));
    next_list++;
}

static void call_ends(const void *answer, size_t len) {
    keep(answer, len);
    put(entry, entry_len);
    calls++;
}

#include "calls.inc"
