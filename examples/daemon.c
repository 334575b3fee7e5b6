/* daemon.c: a storage daemon for one stripe, without a network.
 *
 *     daemon DIRECTORY LENGTH
 *
 * DIRECTORY/image holds the stripe's image of LENGTH bytes. Its log is DIRECTORY/log or DIRECTORY/log2, as the word
 * in DIRECTORY/turn says: 4 bytes, big-endian, 0 for log and 1 for log2. A file that is missing is made of zero
 * bytes. The daemon restarts from the log, and then serves standard input, a command a line:
 *
 *     note FIRST LENGTH NUMBER PASS    notes a piece
 *     write FIRST NUMBER PASS BYTES    writes a noted piece; BYTES is the rest of the line
 *     flush FIRST NUMBER PASS BYTES    notes a piece, and then writes it
 *     read FIRST LENGTH                shows bytes of the image
 *     room                             tells how many notes the log takes until it is compacted, and how many pieces
 *                                      fit the map for sure
 *     restart                          fills the map from the stored log again
 *     quit
 *
 * Each command gets one line: the refusal number, 0 where it is accepted, and what to do about it, or what was asked
 * for. The first line is the answer of the restart at the start. A line that is no command gets `?`.
 *
 * A log that is nearly full is compacted before the next note: the other file gets the new log, and one store into
 * the word turns to it.
 *
 * An answer is given once everything is durable, so the daemon may be killed at any place. A client that got no
 * answer sends its write again, and where that is refused with 18, its note was lost too: it flushes again. Bytes,
 * number and pass stay the same.
 *
 * A log of 40,964 bytes has no passes. Where the word names one the daemon says so and ends; logs and image stay as they
 * are.
 */
#define _POSIX_C_SOURCE 200809L
#include <fcntl.h>
#include <gilboreth.h>
#include <inttypes.h>
#include <stdatomic.h>
#include <stdbool.h>
#include <stdio.h>
#include <stdlib.h>
#include <string.h>
#include <sys/mman.h>
#include <sys/stat.h>
#include <unistd.h>

/* So many entries are a log that is nearly full. A compacted one has at most 1,024, so at least 976 notes follow. */
#ifndef COMPACT_AT
#define COMPACT_AT 2000
#endif

#define WORD_BYTES 4

struct stripe {
    uint8_t map[GIL_MAP_BYTES]; /* in memory alone: a cut loses it */
    uint8_t log[GIL_LOG_BYTES]; /* the copy that the calls are lent */
    uint8_t *logs[2];           /* DIRECTORY/log and DIRECTORY/log2, mapped; one of them is the stored log */
    uint8_t *turn;              /* DIRECTORY/turn, mapped: the word that says which */
    uint8_t *image;             /* DIRECTORY/image, mapped */
    size_t image_length;
};

/* Storage failed. Going on could leave memory and storage apart, so this is a cut: the next start restarts. */
static void die(const char *what)
{
    perror(what);
    exit(1);
}

/* Waits until these bytes of a mapped file are durable. */
static void make_durable(uint8_t *mapped, size_t first, size_t length)
{
    size_t page = (size_t)sysconf(_SC_PAGESIZE);
    size_t start = first / page * page;
    if (msync(mapped + start, first - start + length, MS_SYNC) != 0)
        die("msync");
}

/* Maps a file of this length; makes it of zero bytes where it is missing. One of another length stays as it is, and the
 * hint says what to do about it. What a killed daemon stored may not be durable yet, and the answers to come rest on it:
 * so that is waited for. */
static uint8_t *map_file(int directory, const char *name, size_t length, const char *hint)
{
    struct stat status;
    int file = openat(directory, name, O_RDWR | O_CREAT, 0666);
    if (file < 0 || fstat(file, &status) != 0)
        die(name);
    if (status.st_size == 0 && (ftruncate(file, (off_t)length) != 0 || fsync(file) != 0 || fsync(directory) != 0))
        die(name);
    if (status.st_size != 0 && (uintmax_t)status.st_size != length) {
        fprintf(stderr, "%s: it has %jd bytes, not %zu. %s\n", name, (intmax_t)status.st_size, length, hint);
        exit(1);
    }
    void *mapped = mmap(NULL, length, PROT_READ | PROT_WRITE, MAP_SHARED, file, 0);
    if (mapped == MAP_FAILED)
        die(name);
    close(file);
    make_durable(mapped, 0, length);
    return mapped;
}

/* Puts a word at the start of a mapped file. It is one store, since a cut amid its bytes would leave a word that
 * never was. */
static void put_word(uint8_t *mapped, const uint8_t word[WORD_BYTES])
{
    uint32_t bytes; /* big-endian, as they stand in the file */
    memcpy(&bytes, word, sizeof bytes);
    atomic_store((_Atomic uint32_t *)(void *)mapped, bytes);
    make_durable(mapped, 0, sizeof bytes);
}

static uint8_t *stored_log(const struct stripe *s)
{
    return s->logs[gil_u32_at(s->turn)];
}

/* Carries the newest entry from the log in memory to the stored log, so that a cut leaves the old log or the new one.
 * The entry comes first: until the count changes it is past the last entry, where any bytes may stand. The wait
 * after it keeps the storage from putting the count down earlier. */
static void carry_out(struct stripe *s)
{
    size_t entry = gil_entry_place(gil_count(s->log) - 1);
    memcpy(stored_log(s) + entry, s->log + entry, GIL_BYTES_PER_RUN);
    make_durable(stored_log(s), entry, GIL_BYTES_PER_RUN);
    put_word(stored_log(s), s->log);
}

/* Fills the other log with the runs of the log's map, and turns to it, so that a cut finds either log. The wait
 * before the turn keeps the storage from putting the word down earlier. There is one thread, so no note comes between
 * the call and the turn. */
static uint64_t compact(struct stripe *s)
{
    static const uint8_t words[2][WORD_BYTES] = {{0, 0, 0, 0}, {0, 0, 0, 1}};
    uint32_t other = 1 - gil_u32_at(s->turn);
    uint64_t refusal = gil_compact(s->log, sizeof s->log, s->logs[other], GIL_LOG_BYTES);
    if (refusal != GIL_ACCEPTED)
        return refusal;
    make_durable(s->logs[other], 0, GIL_LOG_BYTES);
    put_word(s->turn, words[other]);
    memcpy(s->log, stored_log(s), sizeof s->log);
    return GIL_ACCEPTED;
}

static uint64_t note(struct stripe *s, uint64_t first, uint64_t length, uint64_t number, uint64_t pass)
{
    uint64_t refusal = gil_count(s->log) < COMPACT_AT ? GIL_ACCEPTED : compact(s);
    if (refusal != GIL_ACCEPTED)
        return refusal;
    refusal = gil_note(s->map, sizeof s->map, s->log, sizeof s->log, first, length, number, pass, s->image_length);
    if (refusal == GIL_ACCEPTED)
        carry_out(s);
    return refusal;
}

static uint64_t write_piece(struct stripe *s, uint64_t first, const char *bytes, size_t length, uint64_t number,
                            uint64_t pass)
{
    uint64_t refusal = gil_write(s->map, sizeof s->map, s->image, s->image_length, first, (const uint8_t *)bytes,
                                 length, number, pass);
    if (refusal == GIL_ACCEPTED)
        make_durable(s->image, (size_t)first, length);
    return refusal;
}

/* The log in memory becomes the stored one, and the map is filled from it. */
static uint64_t restart(struct stripe *s)
{
    memcpy(s->log, stored_log(s), sizeof s->log);
    return gil_restart(s->map, sizeof s->map, s->log, sizeof s->log);
}

static void answer(uint64_t refusal)
{
    printf("%" PRIu64 " %s\n", refusal, gil_refusal_text(refusal));
}

static void answer_read(const struct stripe *s, uint64_t first, uint64_t length)
{
    if (length == 0 || length > s->image_length || first > s->image_length - length) {
        answer(GIL_REFUSED_PIECE);
        return;
    }
    fputs("0 ", stdout);
    fwrite(s->image + first, 1, (size_t)length, stdout);
    putchar('\n');
}

static void answer_room(const struct stripe *s)
{
    uint32_t entries = gil_count(s->log);
    uint32_t notes = entries < COMPACT_AT ? COMPACT_AT - entries : 0;
    printf("0 %" PRIu32 " %" PRIu32 "\n", notes, gil_pieces_that_fit(s->map));
}

/* Takes a word off the front of a line, up to the next space. */
static const char *word(char **line)
{
    char *start = *line;
    size_t length = strcspn(start, " ");
    *line = start + length + (start[length] == ' ');
    start[length] = '\0';
    return start;
}

/* Takes a number off the front of a line: digits alone, below 2^64. */
static bool number(char **line, uint64_t *value)
{
    const char *digits = word(line);
    *value = 0;
    for (const char *d = digits; *d != '\0'; d++) {
        uint64_t digit = (uint64_t)(*d - '0');
        if (*d < '0' || *d > '9' || *value > (UINT64_MAX - digit) / 10)
            return false;
        *value = *value * 10 + digit;
    }
    return *digits != '\0';
}

/* Serves one line of this length, without its break. Answers false where the daemon is to end. */
static bool serve(struct stripe *s, char *line, size_t line_length)
{
    char *rest = line, *end = line + line_length;
    const char *name = word(&rest);
    uint64_t a, b, c, d;
    if (strcmp(name, "quit") == 0)
        return false;
    if (strcmp(name, "restart") == 0) {
        uint64_t refusal = restart(s);
        answer(refusal);
        return refusal == GIL_ACCEPTED; /* no note and no write before a restart has answered 0 */
    }
    if (strcmp(name, "note") == 0 && number(&rest, &a) && number(&rest, &b) && number(&rest, &c) && number(&rest, &d))
        answer(note(s, a, b, c, d));
    else if (strcmp(name, "write") == 0 && number(&rest, &a) && number(&rest, &b) && number(&rest, &c))
        answer(write_piece(s, a, rest, (size_t)(end - rest), b, c));
    else if (strcmp(name, "flush") == 0 && number(&rest, &a) && number(&rest, &b) && number(&rest, &c)) {
        uint64_t refusal = note(s, a, (uint64_t)(end - rest), b, c);
        answer(refusal != GIL_ACCEPTED ? refusal : write_piece(s, a, rest, (size_t)(end - rest), b, c));
    } else if (strcmp(name, "read") == 0 && number(&rest, &a) && number(&rest, &b))
        answer_read(s, a, b);
    else if (strcmp(name, "room") == 0)
        answer_room(s);
    else
        puts("?");
    return true;
}

int main(int count, char **words)
{
    static struct stripe s;
    uint64_t length;
    if (count != 3 || !number(&words[2], &length) || length == 0 || length > SIZE_MAX / 2) {
        fputs("usage: daemon DIRECTORY LENGTH\n", stderr);
        return 2;
    }
    int directory = open(words[1], O_RDONLY | O_DIRECTORY);
    if (directory < 0)
        die(words[1]);
    s.turn = map_file(directory, "turn", WORD_BYTES, "It is a word of 4 bytes.");
    uint32_t used = gil_u32_at(s.turn);
    if (used > 1) {
        fprintf(stderr, "turn: it has %" PRIu32 "; 0 names log, 1 names log2\n", used);
        return 1;
    }
    static const char *const names[2] = {"log", "log2"};
    s.logs[used] = map_file(directory, names[used], GIL_LOG_BYTES,
                            "It is the log in use. One of 40964 bytes has no passes: gilboreth.h, part 3, tells how to go on.");
    s.logs[1 - used] = map_file(directory, names[1 - used], GIL_LOG_BYTES,
                                "It is not the log in use, and what stands in it is of no use: remove it.");
    s.image_length = (size_t)length;
    s.image = map_file(directory, "image", s.image_length, "Start with the length that the image has.");

    /* No note and no write before a restart has answered 0. */
    uint64_t refusal = restart(&s);
    answer(refusal);
    if (refusal != GIL_ACCEPTED)
        return 1;

    char *line = NULL;
    size_t room = 0;
    ssize_t n;
    bool more = true;
    while (fflush(stdout) == 0 && more && (n = getline(&line, &room, stdin)) >= 0) {
        if (n > 0 && line[n - 1] == '\n')
            line[--n] = '\0';
        more = serve(&s, line, (size_t)n);
    }
    free(line);
    return 0;
}
