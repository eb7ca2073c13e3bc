/* replay CALLS: makes the calls that record.c recorded, and compares every answer and every list after it, lists lent for reading and the bytes beside each
 * list too. The same source for every machine. Exit status 1 if anything differs, or if a function of gussetraft.h was never called. */
#include "gussetraft.h"
#include <stdio.h>
#include <stdlib.h>
#include <string.h>

enum { MOST = 32, SIDE = 64, ENOUGH = 10 };

struct list {
    uint8_t *at;
    size_t len;
};
struct call {
    uint32_t numbers[MOST];
    struct list lists[MOST];
    uint8_t answer[8];
};
struct function {
    const char *name, *signature;
    size_t answer;
    void (*make)(struct call *);
};

#include "calls.inc"

enum { FUNCTIONS = sizeof functions / sizeof *functions };

static const uint8_t *file;
static size_t file_len, at;
static int known[256];
static unsigned long made[FUNCTIONS];
static size_t *places; /* where each list's entry stands */
static size_t lists, room;

static void stop(const char *why) {
    fprintf(stderr, "replay: %s\n", why);
    exit(2);
}

static const uint8_t *take(size_t len) {
    const uint8_t *from = file + at;
    if (file_len - at < len) stop("the record is cut short");
    at += len;
    return from;
}

static uint64_t number(size_t bytes) {
    const uint8_t *b = take(bytes);
    uint64_t value = 0;
    for (size_t i = 0; i < bytes; i++) value |= (uint64_t)b[i] << (8 * i);
    return value;
}

static void *memory(size_t len) {
    void *got = malloc(len);
    if (got == NULL) stop("no memory");
    return got;
}

/* A loop for each size: most of what is replayed are workspaces, and an emulator takes its time. A list is aligned as malloc aligns it. */
static void progression(uint8_t *to, size_t count, size_t element, uint64_t first, uint64_t step) {
    if (first == 0 && step == 0) {
        memset(to, 0, count * element);
    } else if (element == 1) {
        for (size_t i = 0; i < count; i++) to[i] = (uint8_t)(first + i * step);
    } else if (element == 2) {
        for (size_t i = 0; i < count; i++) ((uint16_t *)to)[i] = (uint16_t)(first + i * step);
    } else if (element == 4) {
        for (size_t i = 0; i < count; i++) ((uint32_t *)to)[i] = (uint32_t)(first + i * step);
    } else {
        for (size_t i = 0; i < count; i++) ((uint64_t *)to)[i] = first + i * step;
    }
}

/* Reads a list from here into a place for it; with none, goes past it. */
static size_t read_list(uint8_t *to) {
    size_t element = (size_t)number(1), len = (size_t)number(4), done = 0;
    while (done < len) {
        int kind = (int)number(1);
        size_t count = (size_t)number(4);
        if (count == 0 || count > len - done) stop("a list of the record is wrong");
        if (kind == 0) {
            const uint8_t *from = take(count * element);
            if (to != NULL) memcpy(to + done * element, from, count * element);
        } else {
            uint64_t first = number(element), step = number(element);
            if (to != NULL) progression(to + done * element, count, element, first, step);
        }
        done += count;
    }
    return len * element;
}

static size_t bytes_of(size_t list) { /* of all its elements */
    const uint8_t *p = file + places[list];
    return (size_t)p[0] * ((size_t)p[1] | (size_t)p[2] << 8 | (size_t)p[3] << 16 | (size_t)p[4] << 24);
}

static void read_at(size_t list, uint8_t *to) {
    size_t back = at;
    at = places[list];
    read_list(to);
    at = back;
}

static int same_sides(const uint8_t *list, size_t len) {
    for (size_t i = 0; i < SIDE; i++) {
        if (list[-(ptrdiff_t)i - 1] != (uint8_t)(i * 37 + 11) || list[len + i] != (uint8_t)(i * 37 + 11)) return 0;
    }
    return 1;
}

/* Makes the call that stands here. Gives what differs, or none. */
static const char *call(int function) {
    const struct function *f = &functions[function];
    static struct call c;
    static char told[64];
    size_t before[MOST], after[MOST], n = 0, numbers = 0;
    const uint8_t *answer;
    const char *differs = NULL;
    for (const char *s = f->signature; *s != 0; s++) {
        if (*s == 'h' || *s == 'w') {
            c.numbers[numbers++] = (uint32_t)number(4);
            continue;
        }
        s++; /* the bytes of an element */
        before[n] = (size_t)number(4);
        after[n] = (size_t)number(4);
        if (before[n] >= lists || after[n] >= lists || bytes_of(before[n]) != bytes_of(after[n])) stop("a call of the record is wrong");
        size_t len = bytes_of(before[n]);
        uint8_t *list = (uint8_t *)memory(len + 2 * SIDE) + SIDE;
        for (size_t i = 0; i < SIDE; i++) list[-(ptrdiff_t)i - 1] = list[len + i] = (uint8_t)(i * 37 + 11);
        read_at(before[n], list);
        c.lists[n].at = list;
        c.lists[n].len = len / (size_t)(*s - '0');
        n++;
    }
    answer = take(f->answer);
    f->make(&c);
    made[function]++;
    if (memcmp(answer, c.answer, f->answer) != 0) differs = "the answer";
    for (size_t i = 0; i < n; i++) {
        size_t len = bytes_of(after[i]);
        uint8_t *expected = memory(len + 1);
        read_at(after[i], expected);
        if (differs == NULL && memcmp(expected, c.lists[i].at, len) != 0) {
            sprintf(told, "list %u", (unsigned)i);
            differs = told;
        }
        if (differs == NULL && !same_sides(c.lists[i].at, len)) {
            sprintf(told, "the bytes beside list %u", (unsigned)i);
            differs = told;
        }
        free(expected);
        free(c.lists[i].at - SIDE);
    }
    return differs;
}

static void read_file(const char *name) {
    static const char line[] = "gussetraft calls 1\n";
    FILE *in = fopen(name, "rb");
    size_t size = 0, got;
    uint8_t *all = NULL;
    if (in == NULL) stop("the record can not be read");
    do {
        uint8_t *more = realloc(all, size + (1u << 20));
        if (more == NULL) stop("no memory");
        all = more;
        got = fread(all + size, 1, 1u << 20, in);
        size += got;
    } while (got > 0);
    fclose(in);
    file = all;
    file_len = size;
    if (size < sizeof line - 1 || memcmp(take(sizeof line - 1), line, sizeof line - 1) != 0) stop("this is no record of calls");
}

static int function_here(void) {
    size_t name_len, signature_len, answer;
    const uint8_t *name, *signature;
    name_len = (size_t)number(1);
    name = take(name_len);
    signature_len = (size_t)number(1);
    signature = take(signature_len);
    answer = (size_t)number(1);
    for (int i = 0; i < FUNCTIONS; i++) {
        const struct function *f = &functions[i];
        if (strlen(f->name) == name_len && memcmp(f->name, name, name_len) == 0) {
            if (strlen(f->signature) != signature_len || memcmp(f->signature, signature, signature_len) != 0 || f->answer != answer) break;
            return i;
        }
    }
    stop("a function of the record is not in the header, or is another there");
    return 0;
}

int main(int argc, char **argv) {
    unsigned long calls = 0, differences = 0;
    int seen = 0, ended = 0, missed = 0;
    if (argc != 2) stop("usage: replay CALLS");
    read_file(argv[1]);
    while (!ended && differences < ENOUGH) {
        int kind = (int)number(1);
        if (kind == 'F') {
            if (seen == sizeof known / sizeof *known) stop("too many functions");
            known[seen++] = function_here();
        } else if (kind == 'L') {
            if (lists == room) {
                room = room == 0 ? 1024 : 2 * room;
                size_t *more = realloc(places, room * sizeof *places);
                if (more == NULL) stop("no memory");
                places = more;
            }
            places[lists++] = at;
            read_list(NULL);
        } else if (kind == 'C') {
            int function = (int)number(2);
            const char *differs;
            if (function >= seen) stop("a call of the record is wrong");
            differs = call(known[function]);
            if (differs != NULL) {
                printf("call %lu, %s: %s differs\n", calls, functions[known[function]].name, differs);
                differences++;
            }
            calls++;
        } else if (kind == 'E') {
            if (number(4) != calls) stop("the record is cut short");
            ended = 1;
        } else {
            stop("the record is wrong");
        }
    }
    for (int i = 0; ended && i < FUNCTIONS; i++) {
        if (made[i] == 0) {
            printf("%s was never called\n", functions[i].name);
            missed = 1;
        }
    }
    printf("%lu calls, %lu differences\n", calls, differences);
    return differences > 0 || missed || calls == 0;
}
