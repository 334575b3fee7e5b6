/* header.c: the header's constants beside the numbers of documents 01 and 02 and beside what the library does.
 *
 * Each call is given an input that all of its refusals hold for, as far as they can hold together. It is then mended
 * step by step: so each refusal is reached, and each stands before the next. The order goes to standard output, a line
 * for each call, as the header lists it.
 */
#define _POSIX_C_SOURCE 200809L
#include <gilboreth.h>
#include <pthread.h>
#include <stdio.h>
#include <stdlib.h>
#include <string.h>

/* Documents 01 and 02. */
#define IS(name, value) _Static_assert((name) == (value), #name)
IS(GIL_TABLE_BYTES, 11336);
IS(GIL_EVENTS_BYTES, 11268);
IS(GIL_LIST_EVENTS_BYTES, 22532);
IS(GIL_MAP_BYTES, 24580);
IS(GIL_LOG_BYTES, 49156);
IS(GIL_BYTES_SHOWN, 40);
IS(GIL_BYTES_PER_RECORD, 44);
IS(GIL_BYTES_PER_EVENT, 44);
IS(GIL_BYTES_PER_RUN, 24);
IS(GIL_MAX_CLIENTS, 63 + 1);
IS(GIL_MAX_STRIPES, 15 + 1);
IS(GIL_MAX_RECORDS, 256);
IS(GIL_MAX_EVENTS, 256);
IS(GIL_MAX_ITEMS, 64);
IS(GIL_MAX_LIST_EVENTS, 512);
IS(GIL_MAX_RUNS, 1024);
IS(GIL_MAX_ENTRIES, 2048);
IS(GIL_HIGHEST, 4294967295);
IS(GIL_HIGHEST_PASS, 4294967295);
IS(GIL_EOF, 9223372036854775807);
IS(GIL_MODE_PR, 1);
IS(GIL_MODE_NBW, 2);
IS(GIL_MODE_BW, 3);
IS(GIL_MODE_PW, 4);
IS(GIL_STATE_WAITING, 0);
IS(GIL_STATE_GRANTED, 1);
IS(GIL_STATE_ASKED, 2);
IS(GIL_STATE_CANCELING, 3);
IS(GIL_EVENT_GRANT, 1);
IS(GIL_EVENT_REVOCATION, 2);
IS(GIL_ACCEPTED, 0);
IS(GIL_REFUSED_EVENT_BUFFER, 1);
IS(GIL_REFUSED_TABLE, 2);
IS(GIL_REFUSED_CLIENT, 3);
IS(GIL_REFUSED_STRIPE, 4);
IS(GIL_REFUSED_MODE, 5);
IS(GIL_REFUSED_RANGE, 6);
IS(GIL_REFUSED_HANDLES, 7);
IS(GIL_REFUSED_RECORDS, 8);
IS(GIL_REFUSED_NO_RECORD, 9);
IS(GIL_REFUSED_OTHER_CLIENT, 10);
IS(GIL_REFUSED_STATE, 11);
IS(GIL_REFUSED_MAP, 12);
IS(GIL_REFUSED_LOG, 13);
IS(GIL_REFUSED_PIECE, 14);
IS(GIL_REFUSED_NUMBER, 15);
IS(GIL_REFUSED_RUNS, 16);
IS(GIL_REFUSED_ENTRIES, 17);
IS(GIL_REFUSED_SMALLER, 18);
IS(GIL_REFUSED_ITEMS, 19);
IS(GIL_TABLE_BYTES, 4 + 16 * 4 + 4 + GIL_MAX_RECORDS * GIL_BYTES_PER_RECORD);
IS(GIL_EVENTS_BYTES, 4 + GIL_MAX_EVENTS * GIL_BYTES_PER_EVENT);
IS(GIL_LIST_EVENTS_BYTES, 4 + GIL_MAX_LIST_EVENTS * GIL_BYTES_PER_EVENT);
IS(GIL_MAP_BYTES, 4 + GIL_MAX_RUNS * GIL_BYTES_PER_RUN);
IS(GIL_LOG_BYTES, 4 + GIL_MAX_ENTRIES * GIL_BYTES_PER_RUN);
/* An item is eight numbers without a gap. */
IS(sizeof(gil_item), 8 * 8);
IS(offsetof(gil_item, last), 4 * 8);
IS(offsetof(gil_item, refusal), 5 * 8);
IS(offsetof(gil_item, events), 7 * 8);

static uint8_t table[GIL_TABLE_BYTES], events[GIL_EVENTS_BYTES], map[GIL_MAP_BYTES], log_bytes[GIL_LOG_BYTES];
static uint8_t list_events[GIL_LIST_EVENTS_BYTES], image[100 * GIL_MAX_RUNS], new_log[GIL_LOG_BYTES];
static gil_item items[GIL_MAX_ITEMS + 1];

static void check(int holds, const char *what, int line)
{
    if (!holds) {
        fprintf(stderr, "header.c:%d: %s\n", line, what);
        exit(1);
    }
}
#define CHECK(what) check((what), #what, __LINE__)

/* The next refusal of a call: the answer, and its name as the header's lists have it. */
#define STEP(name, call)                        \
    do {                                        \
        CHECK((call) == GIL_REFUSED_##name);    \
        printf(" %s", #name);                   \
    } while (0)

/* An accepted call is the last step. */
#define LAST(call)             \
    do {                       \
        CHECK((call) == 0);    \
        printf("\n");          \
    } while (0)

static void put_u32(uint8_t *bytes, uint64_t value)
{
    for (int i = 0; i < 4; i++)
        bytes[i] = (uint8_t)(value >> (24 - 8 * i));
}

/* Record i of the table, counted from 0. */
static uint8_t *record(size_t i)
{
    return table + 4 + 4 * GIL_MAX_STRIPES + 4 + GIL_BYTES_PER_RECORD * i;
}

static uint64_t ask(size_t table_len, size_t events_len, uint64_t client, uint64_t stripe, uint64_t mode,
                    uint64_t first, uint64_t last)
{
    return gil_request(table, table_len, events, events_len, client, stripe, mode, first, last).refusal;
}

static void request(void)
{
    size_t t = sizeof table, e = sizeof events;
    static uint8_t full[sizeof table];
    memset(table, 0, t);
    for (int i = 0; i < GIL_MAX_RECORDS; i++)
        CHECK(ask(t, e, GIL_MAX_CLIENTS - 1, GIL_MAX_STRIPES - 1, GIL_MODE_PR, GIL_EOF, GIL_EOF) == 0);
    memcpy(full, table, t);
    put_u32(table, GIL_HIGHEST); /* handles issued */
    printf("gil_request:");
    STEP(EVENT_BUFFER, ask(t - 1, e - 1, GIL_MAX_CLIENTS, GIL_MAX_STRIPES, GIL_MODE_PW + 1, 5, 4));
    STEP(TABLE, ask(t - 1, e, GIL_MAX_CLIENTS, GIL_MAX_STRIPES, GIL_MODE_PW + 1, 5, 4));
    STEP(CLIENT, ask(t, e, GIL_MAX_CLIENTS, GIL_MAX_STRIPES, GIL_MODE_PW + 1, 5, 4));
    STEP(STRIPE, ask(t, e, 0, GIL_MAX_STRIPES, GIL_MODE_PW + 1, 5, 4));
    STEP(MODE, ask(t, e, 0, 0, GIL_MODE_PW + 1, 5, 4));
    CHECK(ask(t, e, 0, 0, 0, 5, 4) == GIL_REFUSED_MODE);
    STEP(RANGE, ask(t, e, 0, 0, GIL_MODE_PW, 5, 4));
    CHECK(ask(t, e, 0, 0, GIL_MODE_PW, 5, GIL_EOF + 1) == GIL_REFUSED_RANGE);
    STEP(HANDLES, ask(t, e, 0, 0, GIL_MODE_PW, 5, 5));
    memcpy(table, full, t);
    STEP(RECORDS, ask(t, e, 0, 0, GIL_MODE_PW, 5, 5));
    CHECK(gil_release(table, t, events, e, GIL_MAX_CLIENTS - 1, 1).refusal == 0);
    LAST(ask(t, e, 0, 0, GIL_MODE_PW, 5, 5));
    CHECK(gil_count(events) == 1 && gil_event_at(events, 0).handle == GIL_MAX_RECORDS + 1);
    memset(table, 0, t);
    put_u32(table, GIL_HIGHEST - 1);
    CHECK(ask(t, e, 0, 0, GIL_MODE_PR, 0, 0) == 0 && gil_event_at(events, 0).handle == GIL_HIGHEST);
}

static gil_item item(uint64_t client, uint64_t stripe, uint64_t mode, uint64_t first, uint64_t last)
{
    return (gil_item){client, stripe, mode, first, last, 77, 77, 77}; /* what the answer held does not matter */
}

static gil_answer list(size_t table_len, size_t events_len, size_t count)
{
    return gil_request_list(table, table_len, list_events, events_len, items, count);
}

/* The refusal of the only item of an accepted list. What it asked for stays. */
static uint64_t ask_item(uint64_t client, uint64_t stripe, uint64_t mode, uint64_t first, uint64_t last)
{
    gil_item i = item(client, stripe, mode, first, last);
    gil_answer all = gil_request_list(table, sizeof table, list_events, sizeof list_events, &i, 1);
    CHECK(all.refusal == 0 && all.handle == 0 && all.events == i.events);
    CHECK(i.client == client && i.stripe == stripe && i.mode == mode && i.first == first && i.last == last);
    CHECK(i.refusal == 0 ? i.handle == gil_u32_at(table) : i.handle == 0 && i.events == 0);
    return i.refusal;
}

/* The whole list first, and then an item. */
static void request_list(void)
{
    size_t t = sizeof table, e = sizeof list_events, n = GIL_MAX_ITEMS;
    static uint8_t full[sizeof table];
    memset(table, 0, t);
    for (size_t i = 0; i <= n; i++)
        items[i] = item(1, 2, GIL_MODE_PR, i, GIL_EOF);
    printf("gil_request_list:");
    STEP(EVENT_BUFFER, list(t - 1, e - 1, n + 1).refusal);
    CHECK(list(t, GIL_EVENTS_BYTES, n).refusal == GIL_REFUSED_EVENT_BUFFER);
    STEP(TABLE, list(t - 1, e, n + 1).refusal);
    CHECK(list(10312, e, n).refusal == GIL_REFUSED_TABLE);
    STEP(ITEMS, list(t, e, n + 1).refusal);
    CHECK(gil_u32_at(table) == 0 && items[0].handle == 77 && items[n].handle == 77);
    gil_answer all = list(t, e, n);
    CHECK(all.refusal == 0 && all.handle == 0 && all.events == n && gil_count(list_events) == n);
    for (size_t i = 0; i < n; i++)
        CHECK(items[i].refusal == 0 && items[i].handle == i + 1 && items[i].events == 1);
    CHECK(items[n].handle == 77);
    for (size_t i = 1; i < GIL_MAX_RECORDS / n; i++)
        CHECK(list(t, e, n).refusal == 0 && items[n - 1].handle == n * (i + 1));
    memcpy(full, table, t);
    put_u32(table, GIL_HIGHEST); /* handles issued */
    STEP(CLIENT, ask_item(GIL_MAX_CLIENTS, GIL_MAX_STRIPES, GIL_MODE_PW + 1, 5, 4));
    STEP(STRIPE, ask_item(0, GIL_MAX_STRIPES, GIL_MODE_PW + 1, 5, 4));
    STEP(MODE, ask_item(0, 0, GIL_MODE_PW + 1, 5, 4));
    STEP(RANGE, ask_item(0, 0, GIL_MODE_PW, 5, 4));
    STEP(HANDLES, ask_item(0, 0, GIL_MODE_PW, 5, 5));
    memcpy(table, full, t);
    STEP(RECORDS, ask_item(0, 0, GIL_MODE_PW, 5, 5));
    CHECK(gil_release(table, t, events, sizeof events, 1, 1).refusal == 0);
    LAST(ask_item(0, 0, GIL_MODE_PW, 5, 6));
    /* A grant ends where it asked, at once and after a wait; the mark is there while the request waits. */
    gil_event grant = gil_event_at(list_events, 0);
    CHECK(grant.handle == GIL_MAX_RECORDS + 1 && grant.state == GIL_STATE_GRANTED && grant.first == 5 && grant.last == 6);
    uint8_t *mark = record(GIL_MAX_RECORDS - 1) + GIL_BYTES_SHOWN;
    CHECK(gil_u32_at(mark) == 0);
    CHECK(gil_release(table, t, events, sizeof events, 1, 2).refusal == 0 && ask_item(3, 0, GIL_MODE_BW, 4, 5) == 0);
    CHECK(gil_count(list_events) == 1 && gil_event_at(list_events, 0).kind == GIL_EVENT_REVOCATION && gil_u32_at(mark) == 1);
    CHECK(gil_release(table, t, events, sizeof events, 0, GIL_MAX_RECORDS + 1).events == 1);
    grant = gil_event_at(events, 0);
    CHECK(grant.handle == GIL_MAX_RECORDS + 2 && grant.client == 3 && grant.first == 4 && grant.last == 5);
    CHECK(gil_u32_at(mark - GIL_BYTES_PER_RECORD) == 0);
}

typedef gil_answer naming(uint8_t *, size_t, uint8_t *, size_t, uint64_t, uint64_t);

/* Client 0 holds handle 1 in this mode, asked, or canceling once acknowledged; client 1 waits with handle 2. */
static void name_handle(const char *name, naming *call, uint64_t mode, int acknowledged)
{
    size_t t = sizeof table, e = sizeof events;
    memset(table, 0, t);
    CHECK(ask(t, e, 0, 0, mode, 0, 0) == 0);
    CHECK(ask(t, e, 1, 0, GIL_MODE_PW, 0, 0) == 0);
    gil_event revocation = gil_event_at(events, 0);
    CHECK(gil_count(events) == 1 && revocation.kind == GIL_EVENT_REVOCATION && revocation.state == GIL_STATE_ASKED);
    CHECK(revocation.handle == 1 && revocation.client == 0 && revocation.mode == mode);
    printf("%s:", name);
    STEP(EVENT_BUFFER, call(table, t - 1, events, e - 1, GIL_MAX_CLIENTS, 3).refusal);
    STEP(TABLE, call(table, t - 1, events, e, GIL_MAX_CLIENTS, 3).refusal);
    STEP(CLIENT, call(table, t, events, e, GIL_MAX_CLIENTS, 3).refusal);
    STEP(NO_RECORD, call(table, t, events, e, 1, 3).refusal);
    STEP(OTHER_CLIENT, call(table, t, events, e, 1, 1).refusal);
    if (call != gil_release)
        STEP(STATE, call(table, t, events, e, 1, 2).refusal); /* a waiting request */
    if (acknowledged)
        CHECK(gil_acknowledge(table, t, events, e, 0, 1).refusal == 0);
    gil_answer answer = call(table, t, events, e, 0, 1);
    LAST(answer.refusal);
    CHECK(answer.handle == 1 && answer.events == (call == gil_release));
    if (call != gil_release)
        CHECK(call(table, t, events, e, 0, 1).refusal == GIL_REFUSED_STATE);
}

static uint64_t note(size_t map_len, size_t log_len, uint64_t first, uint64_t length, uint64_t number, uint64_t pass)
{
    return gil_note(map, map_len, log_bytes, log_len, first, length, number, pass, sizeof image);
}

/* Puts a run or an entry of small places down. */
static void put_run(uint8_t *run, uint64_t first, uint64_t last, uint64_t number, uint64_t pass)
{
    memset(run, 0, GIL_BYTES_PER_RUN);
    put_u32(run + 4, first);
    put_u32(run + 12, last);
    put_u32(run + 16, number);
    put_u32(run + 20, pass);
}

static int is_run(const uint8_t *run, uint64_t first, uint64_t last, uint64_t number, uint64_t pass)
{
    return gil_u64_at(run) == first && gil_u64_at(run + 8) == last && gil_u32_at(run + 16) == number
        && gil_u32_at(run + 20) == pass;
}

/* Numbers and passes that are refused: 0, one past the highest, and some that would be 1 if they were cut to 32 bits. */
static const uint64_t wrong[] = {0, UINT64_C(4294967296), UINT64_C(4294967297), UINT64_C(9223372036854775809)};

static void stripe(void)
{
    size_t m = sizeof map, l = sizeof log_bytes, n = sizeof image;
    uint8_t one[1] = {1};
    memset(map, 0, m);
    memset(log_bytes, 0, l);
    for (uint64_t i = 0; i < GIL_MAX_RUNS; i++)
        CHECK(note(m, l, 2 * i, 1, 1, 1) == 0);
    for (int i = GIL_MAX_RUNS; i < GIL_MAX_ENTRIES; i++)
        CHECK(note(m, l, 0, 1, GIL_HIGHEST, GIL_HIGHEST_PASS) == 0);
    CHECK(gil_count(map) == GIL_MAX_RUNS && gil_count(log_bytes) == GIL_MAX_ENTRIES);
    printf("gil_note:");
    STEP(MAP, note(m - 1, l - 1, 1, n, 0, 0));
    STEP(LOG, note(m, l - 1, 1, n, 0, 0));
    STEP(PIECE, note(m, l, 1, n, 0, 0));
    CHECK(note(m, l, 0, 0, 0, 0) == GIL_REFUSED_PIECE);
    STEP(NUMBER, note(m, l, 1, 1, 0, 0));
    for (size_t i = 0; i < sizeof wrong / sizeof *wrong; i++) {
        CHECK(note(m, l, 1, 1, wrong[i], 1) == GIL_REFUSED_NUMBER);
        CHECK(note(m, l, 1, 1, 1, wrong[i]) == GIL_REFUSED_NUMBER);
    }
    STEP(RUNS, note(m, l, 1, 1, 2, 1));
    CHECK(note(m, l, 1, 1, 1, 2) == GIL_REFUSED_RUNS); /* two runs touch it, of its number and another pass */
    STEP(ENTRIES, note(m, l, 2, 1, 1, 1));
    CHECK(note(m, l, 2, 1, GIL_HIGHEST, GIL_HIGHEST_PASS) == GIL_REFUSED_ENTRIES);
    memset(log_bytes, 0, l);
    LAST(note(m, l, 2, 1, 1, 1));
    CHECK(gil_count(log_bytes) == 1 && is_run(log_bytes + gil_entry_place(0), 2, 2, 1, 1));
    CHECK(note(m, l, 2, 2, 7, GIL_HIGHEST_PASS) == 0 && gil_count(log_bytes) == 2);
    CHECK(is_run(log_bytes + gil_entry_place(1), 2, 3, 7, GIL_HIGHEST_PASS));
    CHECK(gil_note(map, m, log_bytes, l, GIL_EOF, 2, 1, 1, UINT64_MAX) == GIL_REFUSED_PIECE);
    memset(map, 0, m);
    CHECK(gil_note(map, m, log_bytes, l, GIL_EOF, 1, 1, 1, UINT64_MAX) == 0);

    printf("gil_write:");
    STEP(MAP, gil_write(map, m - 1, image, n, n, one, 1, 0, 0));
    STEP(PIECE, gil_write(map, m, image, n, n, one, 1, 0, 0));
    STEP(NUMBER, gil_write(map, m, image, n, n - 1, one, 1, 0, 0));
    for (size_t i = 0; i < sizeof wrong / sizeof *wrong; i++) {
        CHECK(gil_write(map, m, image, n, n - 1, one, 1, wrong[i], 1) == GIL_REFUSED_NUMBER);
        CHECK(gil_write(map, m, image, n, n - 1, one, 1, 1, wrong[i]) == GIL_REFUSED_NUMBER);
    }
    STEP(SMALLER, gil_write(map, m, image, n, n - 1, one, 1, GIL_HIGHEST, GIL_HIGHEST_PASS));
    CHECK(note(m, l, n - 1, 1, GIL_HIGHEST, GIL_HIGHEST_PASS - 1) == 0);
    CHECK(gil_write(map, m, image, n, n - 1, one, 1, GIL_HIGHEST, GIL_HIGHEST_PASS) == GIL_REFUSED_SMALLER);
    CHECK(note(m, l, n - 1, 1, GIL_HIGHEST, GIL_HIGHEST_PASS) == 0 && image[n - 1] == 0);
    LAST(gil_write(map, m, image, n, n - 1, one, 1, GIL_HIGHEST, GIL_HIGHEST_PASS));
    CHECK(image[n - 1] == 1);

    printf("gil_restart:");
    memset(log_bytes, 0, l);
    memset(map, 0xff, m); /* what the map buffer held does not matter */
    for (size_t i = 0; i <= GIL_MAX_RUNS; i++)
        put_run(log_bytes + gil_entry_place(i), 2 * i, 2 * i, 1, 1);
    put_u32(log_bytes, GIL_MAX_RUNS + 1);
    STEP(MAP, gil_restart(map, m - 1, log_bytes, l - 1));
    STEP(LOG, gil_restart(map, m, log_bytes, l - 1));
    STEP(RUNS, gil_restart(map, m, log_bytes, l));
    put_u32(log_bytes, GIL_MAX_RUNS);
    LAST(gil_restart(map, m, log_bytes, l));
    CHECK(gil_count(map) == GIL_MAX_RUNS);
}

/* Document 02, #103: "age is judged by number first and pass second". A has pass 1 and B pass 2 of number 2, and B comes
 * first. */
static void passes(void)
{
    size_t m = sizeof map, l = sizeof log_bytes, n = 10;
    static uint8_t before[sizeof map];
    const uint8_t *a = (const uint8_t *)"AAAAAA", *b = (const uint8_t *)"BBBB", *c = (const uint8_t *)"C";
    uint8_t *first_run = map + gil_entry_place(0), *second_run = map + gil_entry_place(1);
    memset(map, 0, m);
    memset(log_bytes, 0, l);
    memcpy(image, "..........", n);
    CHECK(note(m, l, 2, 4, 2, 2) == 0 && gil_write(map, m, image, n, 2, b, 4, 2, 2) == 0);
    CHECK(gil_write(map, m, image, n, 0, a, 6, 2, 1) == GIL_REFUSED_SMALLER);
    CHECK(note(m, l, 0, 6, 2, 1) == 0 && gil_write(map, m, image, n, 0, a, 6, 2, 1) == 0);
    CHECK(memcmp(image, "AABBBB....", n) == 0);
    /* touching runs of one number, and of different passes */
    CHECK(gil_count(map) == 2 && is_run(first_run, 0, 1, 2, 1) && is_run(second_run, 2, 5, 2, 2));
    /* "18 is given where the map's pair is smaller": a greater pass, a greater number, and a byte that is A's */
    memcpy(before, map, m);
    CHECK(gil_write(map, m, image, n, 2, b, 4, 2, 3) == GIL_REFUSED_SMALLER);
    CHECK(gil_write(map, m, image, n, 2, b, 4, 3, 1) == GIL_REFUSED_SMALLER);
    CHECK(gil_write(map, m, image, n, 1, b, 4, 2, 2) == GIL_REFUSED_SMALLER);
    CHECK(memcmp(image, "AABBBB....", n) == 0);
    /* a smaller number loses with any pass: it is accepted, and stores nothing */
    CHECK(note(m, l, 0, 6, 1, GIL_HIGHEST_PASS) == 0 && memcmp(map, before, m) == 0);
    CHECK(gil_write(map, m, image, n, 0, (const uint8_t *)"------", 6, 1, GIL_HIGHEST_PASS) == 0);
    CHECK(memcmp(image, "AABBBB....", n) == 0);
    /* A comes again, noted and written: after a restart, and after a restart of the compacted log */
    for (int i = 0; i < 2; i++) {
        CHECK(note(m, l, 0, 6, 2, 1) == 0 && memcmp(map, before, m) == 0);
        memset(map, 0xff, m);
        CHECK(gil_restart(map, m, log_bytes, l) == 0 && memcmp(map, before, m) == 0);
        CHECK(gil_write(map, m, image, n, 0, a, 6, 2, 1) == 0 && memcmp(image, "AABBBB....", n) == 0);
        CHECK(gil_compact(log_bytes, l, new_log, l) == 0 && memcmp(new_log, map, m) == 0);
        memcpy(log_bytes, new_log, l);
    }
    /* a greater number beats with pass 1; then its second pass; and runs of equal pairs that touch become one */
    CHECK(note(m, l, 0, 1, 3, 1) == 0 && gil_write(map, m, image, n, 0, c, 1, 3, 1) == 0);
    CHECK(memcmp(image, "CABBBB....", n) == 0 && gil_count(map) == 3 && is_run(first_run, 0, 0, 3, 1));
    CHECK(note(m, l, 1, 1, 3, 2) == 0 && gil_count(map) == 3 && is_run(second_run, 1, 1, 3, 2));
    CHECK(note(m, l, 0, 1, 3, 2) == 0 && gil_count(map) == 2 && is_run(first_run, 0, 1, 3, 2));

    /* "touching runs have different" pairs; "a 4-byte pass, at least 1" */
    static const struct {
        uint64_t first, numbers[2], passes[2], refusal;
    } pairs[] = {{2, {2, 2}, {1, 2}, 0},
                 {2, {2, 2}, {2, 1}, 0},
                 {2, {2, 3}, {1, 1}, 0},
                 {2, {2, 2}, {1, 1}, GIL_REFUSED_MAP},
                 {3, {2, 2}, {1, 1}, 0},
                 {3, {2, 2}, {0, 1}, GIL_REFUSED_MAP},
                 {3, {2, 2}, {1, 0}, GIL_REFUSED_MAP},
                 {3, {0, 2}, {1, 1}, GIL_REFUSED_MAP},
                 {3, {2, 2}, {GIL_HIGHEST_PASS, GIL_HIGHEST_PASS}, 0}};
    for (size_t i = 0; i < sizeof pairs / sizeof *pairs; i++) {
        memset(map, 0, m);
        memset(log_bytes, 0, l);
        put_u32(map, 2);
        put_run(first_run, 0, 1, pairs[i].numbers[0], pairs[i].passes[0]);
        put_run(second_run, pairs[i].first, 4, pairs[i].numbers[1], pairs[i].passes[1]);
        CHECK(gil_write(map, m, image, n, 0, c, 1, 1, 1) == pairs[i].refusal);
        CHECK(note(m, l, 0, 1, 1, 1) == pairs[i].refusal);
    }
    for (uint32_t pass = 0; pass < 2; pass++) {
        uint64_t refusal = pass == 0 ? GIL_REFUSED_LOG : 0;
        memset(log_bytes, 0, l);
        put_u32(log_bytes, 2);
        put_run(log_bytes + gil_entry_place(0), 0, 1, 2, 1);
        put_run(log_bytes + gil_entry_place(1), 0, 1, 2, pass);
        CHECK(gil_restart(map, m, log_bytes, l) == refusal);
        CHECK(gil_compact(log_bytes, l, new_log, l) == refusal);
        memset(map, 0, m);
        CHECK(note(m, l, 0, 1, 1, 1) == refusal);
    }
}

/* Maps and logs of before there were passes: every call refuses their lengths. Then such a log goes on as part 3 of the
 * header says. */
static void without_passes(void)
{
    enum { OLD_MAP = 20484, OLD_LOG = 40964, OLD_ENTRY = 20 };
    static uint8_t old[OLD_LOG];
    size_t m = sizeof map, l = sizeof log_bytes, n = sizeof image;
    uint8_t one[1] = {1}, pass_1[4] = {0, 0, 0, 1}, run[GIL_BYTES_PER_RUN];
    memset(map, 0, m);
    memset(log_bytes, 0, l);
    CHECK(note(OLD_MAP, l, 0, 1, 1, 1) == GIL_REFUSED_MAP && note(m, OLD_LOG, 0, 1, 1, 1) == GIL_REFUSED_LOG);
    CHECK(note(m, l, 0, 1, 1, 1) == 0);
    CHECK(gil_write(map, OLD_MAP, image, n, 0, one, 1, 1, 1) == GIL_REFUSED_MAP);
    CHECK(gil_restart(map, OLD_MAP, log_bytes, l) == GIL_REFUSED_MAP);
    CHECK(gil_restart(map, m, log_bytes, OLD_LOG) == GIL_REFUSED_LOG);
    CHECK(gil_compact(log_bytes, OLD_LOG, new_log, l) == GIL_REFUSED_LOG);
    CHECK(gil_compact(log_bytes, l, new_log, OLD_LOG) == GIL_REFUSED_LOG);
    CHECK(gil_compact(log_bytes, OLD_LOG, new_log, OLD_LOG) == GIL_REFUSED_LOG);

    /* P8 of document 01, and so many entries more that the log is full */
    static const uint64_t p8[3][3] = {{0, 5, 2}, {4, 7, 1}, {5, 7, 3}};
    put_u32(old, GIL_MAX_ENTRIES);
    for (size_t i = 0; i < GIL_MAX_ENTRIES; i++) {
        put_run(run, p8[i % 3][0], p8[i % 3][1], p8[i % 3][2], 0);
        memcpy(old + 4 + OLD_ENTRY * i, run, OLD_ENTRY);
    }
    CHECK(gil_restart(map, m, old, sizeof old) == GIL_REFUSED_LOG);
    memset(log_bytes, 0, l);
    memcpy(log_bytes, old, 4);
    for (size_t i = 0; i < gil_count(old); i++) {
        memcpy(log_bytes + gil_entry_place(i), old + 4 + OLD_ENTRY * i, OLD_ENTRY);
        memcpy(log_bytes + gil_entry_place(i) + OLD_ENTRY, pass_1, sizeof pass_1);
    }
    CHECK(gil_restart(map, m, log_bytes, l) == 0 && gil_count(map) == 2);
    CHECK(is_run(map + gil_entry_place(0), 0, 4, 2, 1) && is_run(map + gil_entry_place(1), 5, 7, 3, 1));
}

/* Whether every byte of a buffer is this one. */
static int all(const uint8_t *bytes, size_t length, uint8_t byte)
{
    while (length > 0 && bytes[length - 1] == byte)
        length--;
    return length == 0;
}

static void compact(void)
{
    static uint8_t before[sizeof log_bytes], again[sizeof log_bytes];
    size_t m = sizeof map, l = sizeof log_bytes;
    /* 1,025 runs apart from each other, of number 2 and pass 2; the older entries under them are no runs */
    memset(log_bytes, 0xee, l); /* after the last entry, bytes may be anything */
    for (size_t i = 0; i <= GIL_MAX_RUNS; i++) {
        uint8_t *entry = log_bytes + gil_entry_place(GIL_MAX_RUNS - i); /* falling */
        put_run(entry, 2 * i, 2 * i, 2, 2);
    }
    for (size_t i = GIL_MAX_RUNS + 1; i < GIL_MAX_ENTRIES; i++) {
        memcpy(log_bytes + gil_entry_place(i), log_bytes + gil_entry_place(i - GIL_MAX_RUNS), GIL_BYTES_PER_RUN);
        if (i % 2 == 0)
            put_u32(log_bytes + gil_entry_place(i) + 16, 1); /* of an older number, */
        else
            put_u32(log_bytes + gil_entry_place(i) + 20, 1); /* or of the same one, and an older pass */
    }
    put_u32(log_bytes, GIL_MAX_ENTRIES);
    memcpy(before, log_bytes, l);
    memset(new_log, 0xdd, l);
    printf("gil_compact:");
    CHECK(gil_compact(log_bytes, l - 1, new_log, l) == GIL_REFUSED_LOG);
    CHECK(gil_compact(log_bytes, l, new_log, l - 1) == GIL_REFUSED_LOG);
    put_u32(log_bytes, GIL_MAX_ENTRIES + 1);
    CHECK(gil_compact(log_bytes, l, new_log, l) == GIL_REFUSED_LOG);
    put_u32(log_bytes, GIL_MAX_ENTRIES);
    STEP(LOG, gil_compact(log_bytes, l, new_log, m));
    STEP(RUNS, gil_compact(log_bytes, l, new_log, l));
    CHECK(all(new_log, l, 0xdd) && memcmp(log_bytes, before, l) == 0);
    /* the first entry is the last run; now it is an older entry too, under the first run */
    put_run(log_bytes + gil_entry_place(0), 0, 0, 1, 3);
    memcpy(before, log_bytes, l);
    LAST(gil_compact(log_bytes, l, new_log, l));
    CHECK(memcmp(log_bytes, before, l) == 0 && gil_count(new_log) == GIL_MAX_RUNS);
    for (size_t i = 0; i < GIL_MAX_RUNS; i++)
        CHECK(is_run(new_log + gil_entry_place(i), 2 * i, 2 * i, 2, 2));
    CHECK(all(new_log + gil_entry_place(GIL_MAX_RUNS), l - gil_entry_place(GIL_MAX_RUNS), 0));
    CHECK(gil_compact(new_log, l, again, l) == 0 && memcmp(new_log, again, l) == 0);
    /* the full log had no room; the new one takes 1,024 notes, and the 1,025th is refused */
    CHECK(gil_restart(map, m, log_bytes, l) == 0 && note(m, l, 0, 1, 3, 1) == GIL_REFUSED_ENTRIES);
    memcpy(log_bytes, new_log, l);
    CHECK(gil_restart(map, m, log_bytes, l) == 0);
    for (int i = 0; i < GIL_MAX_ENTRIES - GIL_MAX_RUNS; i++)
        CHECK(note(m, l, 0, 1, 3, 1) == 0);
    CHECK(note(m, l, 0, 1, 3, 1) == GIL_REFUSED_ENTRIES);
}

/* As many pieces as gil_pieces_that_fit says, and the most runs that they can make: 511 apart from each other, and an
 * older one that fills every gap. */
static void pieces(void)
{
    size_t m = sizeof map, l = sizeof log_bytes;
    memset(map, 0, m);
    memset(log_bytes, 0, l);
    CHECK(gil_pieces_that_fit(map) == 512);
    for (uint32_t i = 0; i < 100; i++)
        CHECK(gil_pieces_that_fit(map) == 512 - i && note(m, l, 4 * i + 1, 1, 2, 1 + i) == 0);
    for (uint32_t left = gil_pieces_that_fit(map), i = 100; left > 1; left--, i++)
        CHECK(note(m, l, 4 * i + 1, 1, 2, 1 + i) == 0);
    CHECK(gil_pieces_that_fit(map) == 1 && note(m, l, 0, sizeof image, 1, 1) == 0);
    CHECK(gil_count(map) == 2 * 512 - 1 && gil_pieces_that_fit(map) == 0);
}

/* A way to a log that starts again: PW over all bytes asks every lock back, and later requests wait behind it. */
static void quiet(void)
{
    size_t t = sizeof table, e = sizeof events;
    memset(table, 0, t);
    CHECK(ask(t, e, 0, 0, GIL_MODE_PR, 100, 109) == 0 && gil_count(events) == 1);
    CHECK(ask(t, e, 1, 0, GIL_MODE_NBW, 0, 9) == 0 && gil_count(events) == 1);
    CHECK(ask(t, e, 63, 0, GIL_MODE_PW, 0, GIL_EOF) == 0 && gil_count(events) == 2);
    CHECK(gil_event_at(events, 0).kind == GIL_EVENT_REVOCATION && gil_event_at(events, 1).kind == GIL_EVENT_REVOCATION);
    CHECK(ask(t, e, 2, 0, GIL_MODE_NBW, 0, 9) == 0 && gil_count(events) == 0);
    CHECK(gil_release(table, t, events, e, 1, 2).events == 0);
    CHECK(gil_release(table, t, events, e, 0, 1).events == 1 && gil_event_at(events, 0).client == 63);
    CHECK(gil_release(table, t, events, e, 63, 3).events == 1 && gil_event_at(events, 0).client == 2);
}

/* Every refusal has a sentence of its own; no other number has one. */
static void texts(void)
{
    const char *none = gil_refusal_text(GIL_REFUSED_ITEMS + 1);
    CHECK(gil_refusal_text(UINT64_MAX) == none);
    for (uint64_t i = 0; i <= GIL_REFUSED_ITEMS; i++) {
        const char *text = gil_refusal_text(i);
        CHECK(text != none && text[0] != '\0' && text[strlen(text) - 1] == '.');
        for (uint64_t j = 0; j < i; j++)
            CHECK(strcmp(text, gil_refusal_text(j)) != 0);
    }
}

/* Modes and states as the library knows them: P2 of document 01, and then a PW and a BW request. */
static void codes(void)
{
    size_t t = sizeof table, e = sizeof events;
    memset(table, 0, t);
    CHECK(ask(t, e, 7, 5, GIL_MODE_NBW, 3, 9) == 0);
    gil_event grant = gil_event_at(events, 0);
    CHECK(grant.kind == GIL_EVENT_GRANT && grant.handle == 1 && grant.client == 7 && grant.stripe == 5);
    CHECK(grant.mode == GIL_MODE_NBW && grant.state == GIL_STATE_GRANTED && grant.number == 1);
    CHECK(grant.first == 3 && grant.last == GIL_EOF);
    for (uint64_t client = 1; client <= 3; client++)
        CHECK(ask(t, e, client, 5, GIL_MODE_NBW, 3, 9) == 0);
    CHECK(gil_count(events) == 0);
    CHECK(gil_acknowledge(table, t, events, e, 7, 1).events == 3);
    gil_event second = gil_event_at(events, 0), fourth = gil_event_at(events, 2);
    CHECK(second.handle == 2 && second.client == 1 && second.state == GIL_STATE_CANCELING);
    CHECK(second.number == 2 && second.first == 3 && second.last == 9);
    CHECK(fourth.handle == 4 && fourth.state == GIL_STATE_GRANTED && fourth.number == 4 && fourth.last == GIL_EOF);
    /* Once all are canceling, a PW request goes on waiting, and a BW request is granted. */
    CHECK(ask(t, e, 0, 5, GIL_MODE_PW, 3, 9) == 0);
    CHECK(gil_acknowledge(table, t, events, e, 3, 4).events == 0);
    CHECK(gil_u32_at(record(4) + 16) == GIL_STATE_WAITING);
    CHECK(gil_release(table, t, events, e, 0, 5).refusal == 0);
    CHECK(ask(t, e, 0, 5, GIL_MODE_BW, 3, 9) == 0 && gil_count(events) == 1);
}

/* A table that nobody settled, of so many PR requests with no obstacle. */
static void wait_for_nothing(uint64_t requests)
{
    memset(table, 0, sizeof table);
    put_u32(table, requests);
    put_u32(record(0) - 4, requests);
    for (uint64_t i = 0; i < requests; i++) {
        put_u32(record(i), i + 1);
        put_u32(record(i) + 12, GIL_MODE_PR);
        put_u32(record(i) + 16, GIL_STATE_WAITING);
    }
}

/* The most events of a call: 255 requests are granted, and one more. The most of a list: 192 are granted, and all items
 * but the last, which wants them all back and waits. */
static void most_events(void)
{
    size_t t = sizeof table, e = sizeof events;
    wait_for_nothing(GIL_MAX_RECORDS - 1);
    CHECK(gil_request(table, t, events, e, 0, 0, GIL_MODE_PR, 0, 0).events == GIL_MAX_EVENTS);
    gil_event last = gil_event_at(events, GIL_MAX_EVENTS - 1);
    CHECK(last.handle == GIL_MAX_RECORDS && last.number == 0);

    wait_for_nothing(GIL_MAX_RECORDS - GIL_MAX_ITEMS);
    for (size_t i = 0; i < GIL_MAX_ITEMS; i++)
        items[i] = item(0, 0, i + 1 < GIL_MAX_ITEMS ? GIL_MODE_PR : GIL_MODE_PW, 0, GIL_EOF);
    memset(list_events, 0xee, sizeof list_events);
    CHECK(list(t, sizeof list_events, GIL_MAX_ITEMS).events == GIL_MAX_LIST_EVENTS - 2);
    CHECK(items[0].events == GIL_MAX_RECORDS - GIL_MAX_ITEMS + 1 && items[1].events == 1);
    CHECK(items[GIL_MAX_ITEMS - 1].events == GIL_MAX_RECORDS - 1);
    last = gil_event_at(list_events, GIL_MAX_LIST_EVENTS - 3);
    CHECK(last.kind == GIL_EVENT_REVOCATION && last.handle == GIL_MAX_RECORDS - 1);
    CHECK(list_events[sizeof list_events - 2 * GIL_BYTES_PER_EVENT] == 0xee);
}

/* A null pointer of length 0 is an empty buffer. Every other buffer of the call stays as it is. */
static void null_buffers(void)
{
    static naming *const namings[] = {gil_acknowledge, gil_downgrade, gil_release};
    static uint8_t zeros[sizeof log_bytes];
    size_t t = sizeof table, e = sizeof events, m = sizeof map, l = sizeof log_bytes, n = sizeof image;
    uint8_t one[1] = {1};
    memset(table, 0, t);
    memset(events, 0, e);
    memset(map, 0, m);
    memset(log_bytes, 0, l);
    CHECK(gil_request(NULL, 0, events, e, 0, 0, GIL_MODE_PR, 0, 0).refusal == GIL_REFUSED_TABLE);
    CHECK(gil_request(table, t, NULL, 0, 0, 0, GIL_MODE_PR, 0, 0).refusal == GIL_REFUSED_EVENT_BUFFER);
    CHECK(gil_request(NULL, 0, NULL, 0, 0, 0, GIL_MODE_PR, 0, 0).refusal == GIL_REFUSED_EVENT_BUFFER);
    /* A list without items is accepted and settles nothing: it writes the count 0. */
    size_t le = sizeof list_events;
    memset(list_events, 0xee, le);
    items[0] = item(0, 0, GIL_MODE_PR, 0, 0);
    CHECK(gil_request_list(NULL, 0, list_events, le, items, 1).refusal == GIL_REFUSED_TABLE);
    CHECK(gil_request_list(table, t, NULL, 0, items, 1).refusal == GIL_REFUSED_EVENT_BUFFER);
    CHECK(gil_request_list(NULL, 0, NULL, 0, NULL, 0).refusal == GIL_REFUSED_EVENT_BUFFER);
    CHECK(gil_request_list(NULL, 0, list_events, le, NULL, 0).refusal == GIL_REFUSED_TABLE);
    CHECK(items[0].refusal == 77 && items[0].handle == 77 && list_events[0] == 0xee);
    gil_answer nothing = gil_request_list(table, t, list_events, le, NULL, 0);
    CHECK(nothing.refusal == 0 && nothing.handle == 0 && nothing.events == 0);
    CHECK(gil_count(list_events) == 0 && list_events[4] == 0xee);
    for (size_t i = 0; i < sizeof namings / sizeof *namings; i++) {
        CHECK(namings[i](NULL, 0, events, e, 0, 1).refusal == GIL_REFUSED_TABLE);
        CHECK(namings[i](table, t, NULL, 0, 0, 1).refusal == GIL_REFUSED_EVENT_BUFFER);
        CHECK(namings[i](NULL, 0, NULL, 0, 0, 1).refusal == GIL_REFUSED_EVENT_BUFFER);
    }
    CHECK(gil_note(NULL, 0, log_bytes, l, 0, 1, 1, 1, 1) == GIL_REFUSED_MAP);
    CHECK(gil_note(map, m, NULL, 0, 0, 1, 1, 1, 1) == GIL_REFUSED_LOG);
    CHECK(gil_note(NULL, 0, NULL, 0, 0, 1, 1, 1, 1) == GIL_REFUSED_MAP);
    CHECK(gil_restart(NULL, 0, log_bytes, l) == GIL_REFUSED_MAP);
    CHECK(gil_restart(map, m, NULL, 0) == GIL_REFUSED_LOG);
    CHECK(gil_restart(NULL, 0, NULL, 0) == GIL_REFUSED_MAP);
    memset(new_log, 0, l);
    CHECK(gil_compact(NULL, 0, new_log, l) == GIL_REFUSED_LOG);
    CHECK(gil_compact(log_bytes, l, NULL, 0) == GIL_REFUSED_LOG);
    CHECK(gil_compact(NULL, 0, NULL, 0) == GIL_REFUSED_LOG);
    CHECK(memcmp(new_log, zeros, l) == 0);
    CHECK(memcmp(map, zeros, m) == 0 && memcmp(log_bytes, zeros, l) == 0);
    image[0] = 0;
    CHECK(note(m, l, 0, 1, 1, 1) == 0);
    CHECK(gil_write(NULL, 0, image, n, 0, one, 1, 1, 1) == GIL_REFUSED_MAP);
    CHECK(gil_write(map, m, NULL, 0, 0, one, 1, 1, 1) == GIL_REFUSED_PIECE);
    CHECK(gil_write(map, m, image, n, 0, NULL, 0, 1, 1) == GIL_REFUSED_PIECE);
    CHECK(gil_write(map, m, NULL, 0, 0, NULL, 0, 1, 1) == GIL_REFUSED_PIECE);
    CHECK(gil_write(NULL, 0, NULL, 0, 0, NULL, 0, 1, 1) == GIL_REFUSED_MAP);
    CHECK(memcmp(table, zeros, t) == 0 && memcmp(events, zeros, e) == 0 && image[0] == 0);
}

/* The calls that may take the most stack: long pieces, full maps and logs, full tables and their events. */
static void deep_calls(void)
{
    static uint8_t piece[sizeof image];
    size_t t = sizeof table, e = sizeof events, m = sizeof map, l = sizeof log_bytes, n = sizeof image;
    memset(map, 0, m);
    memset(log_bytes, 0, l);
    memset(piece, 7, n);
    /* a piece of 100 KB over one run, and over 1,000 runs of which it owns every other one */
    CHECK(note(m, l, 0, n, 1, 1) == 0 && gil_write(map, m, image, n, 0, piece, n, 1, 1) == 0);
    CHECK(image[0] == 7 && image[n - 1] == 7);
    for (uint64_t i = 0; i < 500; i++)
        CHECK(note(m, l, 200 * i, 100, 1 + i % 2, 2 + i) == 0);
    CHECK(gil_count(map) == 1000 && gil_write(map, m, image, n, 0, piece, n, 1, 1) == 0);
    /* a note that meets every run, and a restart and a compaction of the log when it is full, which draw them again */
    CHECK(note(m, l, 1, n - 1, 2, 400) == 0 && note(m, l, 0, n, 1, 1) == 0);
    while (gil_count(log_bytes) < GIL_MAX_ENTRIES)
        CHECK(note(m, l, 2 * (uint64_t)gil_count(log_bytes), 1, 2, 400) == 0);
    CHECK(gil_restart(map, m, log_bytes, l) == 0 && gil_compact(log_bytes, l, new_log, l) == 0);
    for (size_t i = 0; i < GIL_MAX_ENTRIES; i++) {
        put_u32(log_bytes + gil_entry_place(i) + 4, 2 * (uint64_t)(i % GIL_MAX_RUNS));
        put_u32(log_bytes + gil_entry_place(i) + 12, 2 * (uint64_t)(i % GIL_MAX_RUNS));
    }
    CHECK(gil_restart(map, m, log_bytes, l) == 0 && gil_count(map) == GIL_MAX_RUNS);
    CHECK(gil_compact(log_bytes, l, new_log, l) == 0 && gil_count(new_log) == GIL_MAX_RUNS);
    CHECK(note(m, l, 0, n, GIL_HIGHEST, GIL_HIGHEST_PASS) == GIL_REFUSED_ENTRIES);
    /* an acknowledge that grants 254 requests, and a request, a refused downgrade and a release among 256 records */
    memset(table, 0, t);
    CHECK(ask(t, e, 0, 0, GIL_MODE_NBW, 0, 9) == 0);
    for (int i = 2; i < GIL_MAX_RECORDS; i++)
        CHECK(ask(t, e, 1, 0, GIL_MODE_NBW, 0, 9) == 0);
    CHECK(gil_acknowledge(table, t, events, e, 0, 1).events == GIL_MAX_RECORDS - 2);
    CHECK(ask(t, e, 2, 0, GIL_MODE_PW, 0, 9) == 0 && ask(t, e, 2, 0, GIL_MODE_PW, 0, 9) == GIL_REFUSED_RECORDS);
    CHECK(gil_downgrade(table, t, events, e, 1, 2).refusal == GIL_REFUSED_STATE);
    CHECK(gil_release(table, t, events, e, 2, GIL_MAX_RECORDS).refusal == 0);
    /* a full list of requests that all wait for the first of them, on a table that it fills, and one that finds no room */
    for (int i = 0; i < GIL_MAX_ITEMS; i++)
        CHECK(gil_release(table, t, events, e, 1, 2 + (uint64_t)i).refusal == 0);
    for (size_t i = 0; i < GIL_MAX_ITEMS; i++)
        items[i] = item(1, 0, GIL_MODE_PW, 0, 9);
    CHECK(list(t, sizeof list_events, GIL_MAX_ITEMS).refusal == 0 && items[GIL_MAX_ITEMS - 1].refusal == 0);
    CHECK(list(t, sizeof list_events, GIL_MAX_ITEMS).refusal == 0 && items[1].refusal == GIL_REFUSED_RECORDS);
}

static void *everything(void *nothing)
{
    request();
    request_list();
    name_handle("gil_acknowledge", gil_acknowledge, GIL_MODE_PR, 0);
    name_handle("gil_downgrade", gil_downgrade, GIL_MODE_BW, 1);
    name_handle("gil_downgrade", gil_downgrade, GIL_MODE_PW, 1);
    name_handle("gil_release", gil_release, GIL_MODE_PR, 0);
    stripe();
    passes();
    without_passes();
    compact();
    pieces();
    quiet();
    texts();
    codes();
    most_events();
    null_buffers();
    deep_calls();
    return nothing;
}

/* All of it on one stack, which is filled before and looked at after. The header says that a call needs less than 64 KB; what the thread
 * itself needs is counted too. A call that jumps over a guard would be seen as well. */
int main(void)
{
    static _Alignas(4096) uint8_t stack[1024 * 1024];
    pthread_attr_t attributes;
    pthread_t thread;
    size_t unused = 0;
    memset(stack, 0xa5, sizeof stack);
    CHECK(pthread_attr_init(&attributes) == 0 && pthread_attr_setstack(&attributes, stack, sizeof stack) == 0);
    CHECK(pthread_create(&thread, &attributes, everything, NULL) == 0 && pthread_join(thread, NULL) == 0);
    while (unused < sizeof stack && stack[unused] == 0xa5)
        unused++;
    fprintf(stderr, "== C: at most %zu bytes of stack were used\n", sizeof stack - unused);
    CHECK(sizeof stack - unused < 64 * 1024);
    return 0;
}
