/* wrong.c: entries that are wrong on purpose, linked around the library's own (--wrap): kills.py has to find them. */
#include <gilboreth.h>
#include <stdlib.h>
#include <string.h>

uint64_t __real_gil_note(uint8_t *map, size_t map_len, uint8_t *log, size_t log_len, uint64_t first, uint64_t length,
                         uint64_t number, uint64_t pass, uint64_t image_length);
uint64_t __wrap_gil_note(uint8_t *map, size_t map_len, uint8_t *log, size_t log_len, uint64_t first, uint64_t length,
                         uint64_t number, uint64_t pass, uint64_t image_length);
uint64_t __real_gil_write(const uint8_t *map, size_t map_len, uint8_t *image, size_t image_len, uint64_t first,
                          const uint8_t *piece, size_t piece_len, uint64_t number, uint64_t pass);
uint64_t __wrap_gil_write(const uint8_t *map, size_t map_len, uint8_t *image, size_t image_len, uint64_t first,
                          const uint8_t *piece, size_t piece_len, uint64_t number, uint64_t pass);
uint64_t puts_back(const uint8_t *map, size_t map_len, uint8_t *image, size_t image_len, uint64_t first,
                   const uint8_t *piece, size_t piece_len, uint64_t number, uint64_t pass);
uint64_t __real_gil_restart(uint8_t *map, size_t map_len, const uint8_t *log, size_t log_len);
uint64_t __wrap_gil_restart(uint8_t *map, size_t map_len, const uint8_t *log, size_t log_len);
uint64_t __real_gil_compact(const uint8_t *old_log, size_t old_len, uint8_t *new_log, size_t new_len);
uint64_t __wrap_gil_compact(const uint8_t *old_log, size_t old_len, uint8_t *new_log, size_t new_len);

#ifdef BY_ARRIVAL
/* Takes a piece by arrival, not by number and pass. Its answers are right. */
uint64_t __wrap_gil_write(const uint8_t *map, size_t map_len, uint8_t *image, size_t image_len, uint64_t first,
                          const uint8_t *piece, size_t piece_len, uint64_t number, uint64_t pass)
{
    uint64_t refusal = __real_gil_write(map, map_len, image, image_len, first, piece, piece_len, number, pass);
    if (refusal == GIL_ACCEPTED)
        memcpy(image + first, piece, piece_len);
    return refusal;
}
#endif

#ifdef BY_NUMBER
/* Takes pieces of one number by arrival, not by pass: a resend of the first flush beats the second. Its answers are right. */
uint64_t __wrap_gil_write(const uint8_t *map, size_t map_len, uint8_t *image, size_t image_len, uint64_t first,
                          const uint8_t *piece, size_t piece_len, uint64_t number, uint64_t pass)
{
    uint64_t refusal = __real_gil_write(map, map_len, image, image_len, first, piece, piece_len, number, pass);
    for (uint32_t i = 0; refusal == GIL_ACCEPTED && i < gil_count(map); i++) {
        const uint8_t *run = map + gil_entry_place(i); /* runs have the shape of entries */
        uint64_t from = gil_u64_at(run), to = gil_u64_at(run + 8), last = first + piece_len - 1;
        from = from < first ? first : from;
        to = to < last ? to : last;
        if (gil_u32_at(run + 16) == number && from <= to)
            memcpy(image + from, piece + (from - first), to - from + 1);
    }
    return refusal;
}
#endif

#if defined PASS_ONE || defined PASS_FIRST
/* PASS_ONE gives every piece pass 1. PASS_FIRST judges by pass first and number second. */
#ifdef PASS_ONE
#define PAIR number, pass > 0
#else
#define PAIR pass, number
#endif
uint64_t __wrap_gil_note(uint8_t *map, size_t map_len, uint8_t *log, size_t log_len, uint64_t first, uint64_t length,
                         uint64_t number, uint64_t pass, uint64_t image_length)
{
    return __real_gil_note(map, map_len, log, log_len, first, length, PAIR, image_length);
}

uint64_t __wrap_gil_write(const uint8_t *map, size_t map_len, uint8_t *image, size_t image_len, uint64_t first,
                          const uint8_t *piece, size_t piece_len, uint64_t number, uint64_t pass)
{
    return __real_gil_write(map, map_len, image, image_len, first, piece, piece_len, PAIR);
}
#endif

#ifdef FORGETFUL
/* Forgets what the log says: every byte is in no run after a restart. */
uint64_t __wrap_gil_restart(uint8_t *map, size_t map_len, const uint8_t *log, size_t log_len)
{
    (void)log;
    (void)log_len;
    memset(map, 0, map_len);
    return GIL_ACCEPTED;
}
#endif

#if defined FORGETS_PASSES || defined RESTARTS_BY_ARRIVAL || defined TURNS_WITHOUT_PASSES
#define PASS_AT 20 /* in a run and in an entry */

static void put_u32(uint8_t *bytes, uint32_t value)
{
    for (int i = 0; i < 4; i++)
        bytes[i] = (uint8_t)(value >> (24 - 8 * i));
}

/* The log with another pass in each entry: 1, or for each entry one more. */
static const uint8_t *with_passes(const uint8_t *log, int by_arrival)
{
    static uint8_t copy[GIL_LOG_BYTES];
    memcpy(copy, log, sizeof copy);
    for (uint32_t i = 0; i < gil_count(copy); i++)
        put_u32(copy + gil_entry_place(i) + PASS_AT, by_arrival ? i + 1 : 1);
    return copy;
}
#endif

#ifdef FORGETS_PASSES
/* Knows numbers alone after a restart. */
uint64_t __wrap_gil_restart(uint8_t *map, size_t map_len, const uint8_t *log, size_t log_len)
{
    return __real_gil_restart(map, map_len, with_passes(log, 0), log_len);
}
#endif

#ifdef RESTARTS_BY_ARRIVAL
/* Of entries of one number takes the one that was noted last, whatever its pass, in a restart. */
uint64_t __wrap_gil_restart(uint8_t *map, size_t map_len, const uint8_t *log, size_t log_len)
{
    uint64_t refusal = __real_gil_restart(map, map_len, with_passes(log, 1), log_len);
    uint32_t runs = 0, last = 0;
    for (uint32_t i = 0; refusal == GIL_ACCEPTED && i < gil_count(map); i++) {
        uint8_t *run = map + gil_entry_place(i), *before = map + gil_entry_place(last);
        const uint8_t *entry = log + gil_entry_place(gil_u32_at(run + PASS_AT) - 1);
        memcpy(run + PASS_AT, entry + PASS_AT, 4);
        if (runs > 0 && gil_u64_at(before + 8) + 1 == gil_u64_at(run) && memcmp(before + 16, run + 16, 8) == 0)
            memcpy(before + 8, run + 8, 8); /* touching runs of equal pairs become one */
        else
            memmove(map + gil_entry_place(last = runs++), run, GIL_BYTES_PER_RUN);
    }
    if (refusal == GIL_ACCEPTED) {
        put_u32(map, runs);
        memset(map + gil_entry_place(runs), 0, map_len - gil_entry_place(runs));
    }
    return refusal;
}
#endif

#ifdef TURNS_WITHOUT_PASSES
/* Compacts by numbers alone. Its map stays right, until it restarts from the log that was turned to. */
uint64_t __wrap_gil_compact(const uint8_t *old_log, size_t old_len, uint8_t *new_log, size_t new_len)
{
    return __real_gil_compact(with_passes(old_log, 0), old_len, new_log, new_len);
}
#endif

#ifdef PUTS_BACK
/* Stores the whole piece, and then puts back the bytes under other pairs. What it leaves is right; what a cut finds is not. */
uint64_t puts_back(const uint8_t *map, size_t map_len, uint8_t *image, size_t image_len, uint64_t first,
                   const uint8_t *piece, size_t piece_len, uint64_t number, uint64_t pass)
{
    uint8_t *right = malloc(image_len);
    if (right == NULL)
        abort();
    memcpy(right, image, image_len);
    uint64_t refusal = __real_gil_write(map, map_len, right, image_len, first, piece, piece_len, number, pass);
    if (refusal == GIL_ACCEPTED) {
        memcpy(image + first, piece, piece_len);
        memcpy(image + first, right + first, piece_len);
    }
    free(right);
    return refusal;
}
#endif

#ifdef NOTES_BETWEEN
/* Takes a note between the call and the turn: what is turned to was made before the last note. */
static uint8_t early[GIL_LOG_BYTES];
static int made;

uint64_t __wrap_gil_note(uint8_t *map, size_t map_len, uint8_t *log, size_t log_len, uint64_t first, uint64_t length,
                         uint64_t number, uint64_t pass, uint64_t image_length)
{
    made = __real_gil_compact(log, log_len, early, sizeof early) == GIL_ACCEPTED;
    return __real_gil_note(map, map_len, log, log_len, first, length, number, pass, image_length);
}

uint64_t __wrap_gil_compact(const uint8_t *old_log, size_t old_len, uint8_t *new_log, size_t new_len)
{
    if (!made)
        return __real_gil_compact(old_log, old_len, new_log, new_len);
    memcpy(new_log, early, sizeof early);
    return GIL_ACCEPTED;
}
#endif
