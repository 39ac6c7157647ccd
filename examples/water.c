/*
 * Binds 01's example from C, by records: water(block, /, start, minutes=30, **kwargs) called as water("B3", start=400, crop="vine").
 * From the root of a checkout, after `rt lib` in crates/liuwdom:
 *
 *     cc -Iinclude examples/water.c crates/liuwdom/out/libliuwdom.a -o water && ./water
 */
#include <inttypes.h>
#include <stdio.h>
#include <string.h>

#include "liuwdom.h"

/* A record while it is written: its cells, and the area that its texts stand in. Both are long enough for what stands below. */
struct record {
    uint64_t cells[64];
    size_t len;
    uint8_t area[256];
    size_t used;
};

static void add(struct record *record, uint64_t cell) { record->cells[record->len++] = cell; }

static void add_pair(struct record *record, uint64_t first, uint64_t second)
{
    add(record, first);
    add(record, second);
}

/* A text at the end of the area, as its payload. */
static uint64_t text(struct record *record, const char *bytes)
{
    size_t start = record->used;
    size_t length = strlen(bytes);
    memcpy(record->area + start, bytes, length);
    record->used += length;
    return start * 256 + length;
}

/* A step; the kind and payload of its default are 0 where it has none, and so is the name of a mark. */
static void step(struct record *list, uint64_t code, const char *name, uint64_t kind, uint64_t payload)
{
    add_pair(list, code, name == NULL ? 0 : text(list, name));
    add_pair(list, kind, payload);
}

static void water_list(struct record *list)
{
    memset(list, 0, sizeof *list);
    add(list, text(list, "water"));
    step(list, LIUWDOM_REQUIRED, "block", 0, 0);
    step(list, LIUWDOM_SLASH, NULL, 0, 0);
    step(list, LIUWDOM_REQUIRED, "start", 0, 0);
    step(list, LIUWDOM_DEFAULTED, "minutes", LIUWDOM_WHOLE, 30);
    step(list, LIUWDOM_STAR_KWARGS, NULL, 0, 0);
}

/* The head of a call with so many written values and names, and nothing behind * and **. */
static void call_head(struct record *call, uint64_t values, uint64_t names)
{
    memset(call, 0, sizeof *call);
    add_pair(call, values, names);
    add_pair(call, LIUWDOM_ABSENT, 0);
    add_pair(call, LIUWDOM_ABSENT, 0);
}

static void named(struct record *call, const char *name, uint64_t kind, uint64_t payload)
{
    add_pair(call, LIUWDOM_CALL_TEXT, text(call, name));
    add_pair(call, kind, payload);
}

static void water_call(struct record *call)
{
    call_head(call, 1, 2);
    add_pair(call, LIUWDOM_CALL_TEXT, text(call, "B3"));
    named(call, "start", LIUWDOM_WHOLE, 400);
    named(call, "crop", LIUWDOM_CALL_TEXT, text(call, "vine"));
}

static void print_text(const struct record *record, uint64_t payload)
{
    printf("%.*s", (int)(payload % 256), (const char *)record->area + payload / 256);
}

/* A value as sheets write it. */
static void print_value(const struct record *list, const struct record *call, const uint64_t *value)
{
    uint64_t payload = value[1];
    switch (value[0]) {
    case 0: break;
    case LIUWDOM_NOTHING: printf("n"); break;
    case LIUWDOM_FLAG: printf("b%" PRIu64, payload); break;
    case LIUWDOM_WHOLE: printf("i%" PRId64, (int64_t)payload); break;
    case LIUWDOM_REAL: printf("r%016" PRIx64, payload); break;
    case LIUWDOM_SPEC_TEXT: printf("s"), print_text(list, payload); break;
    case LIUWDOM_CALL_TEXT: printf("s"), print_text(call, payload); break;
    case LIUWDOM_HANDLE: printf("h%" PRIu64, payload); break;
    default: printf("%" PRIu64, payload); break; /* a remainder's count */
    }
    printf("\n");
}

static void print_slot(const struct record *list, const struct record *call, const uint64_t *cells, uint64_t index, const uint64_t *slot)
{
    printf("%" PRIu64 ",", index);
    switch (cells[0]) {
    case LIUWDOM_STAR_ARGS: printf("*args"); break;
    case LIUWDOM_STAR_KWARGS: printf("**kwargs"); break;
    default: print_text(list, cells[1]); break;
    }
    printf(",");
    print_value(list, call, slot);
}

/* The slots of a board; where it goes on. */
static const uint64_t *print_slots(const struct record *list, const struct record *call, const uint64_t *board)
{
    uint64_t index = 0;
    for (size_t at = 1; at < list->len; at += 4) {
        uint64_t code = list->cells[at];
        if (code != LIUWDOM_SLASH && code != LIUWDOM_BARE_STAR) {
            print_slot(list, call, list->cells + at, index, board + 2 * index);
            index += 1;
        }
    }
    return board + 2 * index;
}

static const uint64_t *print_star(const struct record *list, const struct record *call, const uint64_t *board, uint64_t count)
{
    for (uint64_t index = 0; index < count; index++) {
        printf("star,,");
        print_value(list, call, board + 2 * index);
    }
    return board + 2 * count;
}

static void print_named(const struct record *list, const struct record *call, const uint64_t *board, uint64_t count)
{
    for (uint64_t index = 0; index < count; index++) {
        const uint64_t *pair = board + 4 * index;
        printf("named,");
        print_text(call, pair[1]);
        printf(",");
        print_value(list, call, pair + 2);
    }
}

/* Slots, remainders and counts, as `bind` prints them. */
static void print_accepted(const struct record *list, const struct record *call, const uint64_t *board, const uint64_t *counts)
{
    printf("slot,name,value\n");
    board = print_slots(list, call, board);
    board = print_star(list, call, board, counts[2]);
    print_named(list, call, board, counts[3]);
    printf("taken,%" PRIu64 ",\ndefaulted,%" PRIu64 ",\n", counts[0], counts[1]);
}

/* The number, and the name in its detail where it has one, read out of the area that the answer says. */
static void print_refused(const struct record *list, const struct record *call, const uint64_t *answer)
{
    const struct record *owner = answer[LIUWDOM_AT_AREA] == LIUWDOM_SPEC_AREA ? list : call;
    printf("refused,%" PRIu64 ",", answer[LIUWDOM_AT_NUMBER]);
    print_text(owner, answer[LIUWDOM_AT_START] * 256 + answer[LIUWDOM_AT_LENGTH]);
    printf("\n");
}

static void print_ending(const struct record *list, const struct record *call, const uint64_t *board, const uint64_t *answer)
{
    if (answer[LIUWDOM_AT_NUMBER] == 0) {
        print_accepted(list, call, board, answer + LIUWDOM_AT_VALUES);
    } else {
        print_refused(list, call, answer);
    }
}

static void collect(const struct record *list, const struct record *call)
{
    uint64_t board[LIUWDOM_BOARD];
    uint64_t answer[LIUWDOM_ANSWER];
    liuwdom_collect(list->cells, list->len, list->area, list->used, call->cells, call->len, call->area, call->used, board, LIUWDOM_BOARD,
                    answer);
    print_ending(list, call, board, answer);
}

/* The same in two steps: the list is judged once, and any number of calls bound against it. */
static void collect_prepared(const struct record *list, const struct record *call)
{
    uint64_t prepared[LIUWDOM_PREPARED];
    uint64_t board[LIUWDOM_BOARD];
    uint64_t answer[LIUWDOM_ANSWER];
    if (liuwdom_prepare(list->cells, list->len, list->area, list->used, prepared, LIUWDOM_PREPARED, answer) == 0) {
        size_t len = (size_t)answer[LIUWDOM_AT_VALUES];
        liuwdom_bind_prepared(prepared, len, list->area, list->used, call->cells, call->len, call->area, call->used, board, LIUWDOM_BOARD,
                              answer);
    }
    print_ending(list, call, board, answer);
}

int main(void)
{
    struct record list;
    struct record call;
    water_list(&list);
    water_call(&call);
    printf("-- water(\"B3\", start=400, crop=\"vine\")\n");
    collect(&list, &call);
    printf("-- the same against the prepared list\n");
    collect_prepared(&list, &call);
    printf("-- water(\"B3\")\n");
    call_head(&call, 1, 0);
    add_pair(&call, LIUWDOM_CALL_TEXT, text(&call, "B3"));
    collect(&list, &call);
    return 0;
}
