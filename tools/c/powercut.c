/* powercut.c: linked around mmap and msync (--wrap), this lets a program lose power.
 *
 * A kill leaves all that was stored to a mapped file. What is durable of it is kept in a file beside it, NAME.durable. It
 * gets there by msync, or by chance earlier: at some msync of some starts, sectors that were stored and not waited for get
 * there, in no order. GIL_CUT is a seed; if it is not 0, the program ends at some msync, most often at those of a turn,
 * which are few: by a kill, or by a loss of power, right after such sectors. A loss of power puts back what is durable, so
 * it also takes what a program stored that was killed before, if nobody has waited for it since.
 *
 * -DIMPATIENT=.. ignores the msync of an entry from that byte of a log on: a program that does not wait between entry and
 * count.
 * -DHASTY does the msync of a new log after that of the word: a program that turns before the new log is durable. It loses
 * power between the two alone.
 * -DFRONT=.. does the msync of a new log up to that byte: a program that waits for its front alone before it turns. It
 * loses power at the msync of the word alone.
 * -DTRUSTING ignores the first msync of each file: a program that does not wait at its start for what a killed one stored.
 * It is killed at the msync of the word alone, and loses power at some msync of a start after that.
 */
#define _POSIX_C_SOURCE 200809L
#include <fcntl.h>
#include <gilboreth.h>
#include <signal.h>
#include <stdio.h>
#include <stdlib.h>
#include <string.h>
#include <sys/mman.h>
#include <unistd.h>

#define SECTOR 512

void *__real_mmap(void *address, size_t length, int protection, int flags, int file, off_t offset);
void *__wrap_mmap(void *address, size_t length, int protection, int flags, int file, off_t offset);
int __wrap_msync(void *address, size_t length, int flags);

static struct mapped {
    uint8_t *memory, *durable; /* the file, as a kill leaves it, and as a loss of power does */
    size_t length;
    int waited_for;
} files[4];
static size_t count;
static int cuts, early; /* whether it is to end, and whether sectors become durable before they are waited for */

static int chance(int of)
{
    return rand() % of == 0;
}

static void store(struct mapped *m, size_t first, size_t end)
{
    end = end < m->length ? end : m->length;
    memcpy(m->durable + first, m->memory + first, end - first);
}

static void store_some_sectors(int of)
{
    for (struct mapped *m = files; m < files + count; m++)
        for (size_t first = 0; first < m->length; first += SECTOR) {
            size_t left = m->length - first;
            if (memcmp(m->memory + first, m->durable + first, left < SECTOR ? left : SECTOR) != 0 && chance(of))
                store(m, first, first + SECTOR);
        }
}

void *__wrap_mmap(void *address, size_t length, int protection, int flags, int file, off_t offset)
{
    static const char end[] = ".durable";
    const char *seed = getenv("GIL_CUT");
    struct mapped *m = &files[count++];
    char link[32], name[4096];
    if (count > sizeof files / sizeof *files)
        abort();
    cuts = seed != NULL && strcmp(seed, "0") != 0;
    srand(cuts ? (unsigned)strtoul(seed, NULL, 10) : 0);
    early = chance(2);
    m->memory = __real_mmap(address, length, protection, flags, file, offset);
    m->length = length;
    snprintf(link, sizeof link, "/proc/self/fd/%d", file);
    ssize_t n = readlink(link, name, sizeof name - sizeof end);
    if (m->memory == MAP_FAILED || n < 0)
        abort();
    memcpy(name + n, end, sizeof end);
    int beside = open(name, O_RDWR | O_CREAT, 0666);
    if (lseek(beside, 0, SEEK_END) == 0 && write(beside, m->memory, length) != (ssize_t)length)
        abort();
    m->durable = __real_mmap(NULL, length, PROT_READ | PROT_WRITE, MAP_SHARED, beside, 0);
    if (m->durable == MAP_FAILED)
        abort();
    close(beside);
    return m->memory;
}

/* Ends the program, one time of so many: it loses power, or is killed. */
static void perhaps_cut(int of, int power)
{
    if (!cuts || !chance(of))
        return;
    if (power) {
        store_some_sectors(2);
        for (struct mapped *m = files; m < files + count; m++)
            memcpy(m->memory, m->durable, m->length);
    }
    raise(SIGKILL);
}

int __wrap_msync(void *address, size_t length, int flags)
{
    struct mapped *m = files;
    while (m < files + count && ((uint8_t *)address < m->memory || (uint8_t *)address >= m->memory + m->length))
        m++;
    if (m == files + count)
        abort();
    size_t first = (size_t)((uint8_t *)address - m->memory);
    int start = !m->waited_for; /* a program waits for each of its files then */
    int left = start && memcmp(m->memory, m->durable, m->length) != 0;
    int word = !start && m->length == sizeof(uint32_t);
    int new_log = !start && m->length == GIL_LOG_BYTES && length == GIL_LOG_BYTES;
    m->waited_for = 1;
    (void)flags;
    (void)left;
    (void)new_log;
#ifdef HASTY
    static struct mapped *late;
    if (new_log) {
        late = m;
        return 0;
    }
    if (word && late != NULL) {
        store(m, first, first + length);
        perhaps_cut(2, 1);
        m = late;
        length = m->length;
    }
#elif defined FRONT
    if (word)
        perhaps_cut(2, 1);
    if (new_log)
        length = FRONT;
#elif defined TRUSTING
    static int trusts;
    trusts |= left;
    if (start)
        return 0;
    if (trusts || word)
        perhaps_cut(trusts ? 20 : 2, trusts);
    early = 0;
#else
    perhaps_cut(word || new_log || left ? 5 : 80, !chance(3));
#endif
    if (early && chance(4))
        store_some_sectors(2);
#ifdef IMPATIENT
    if (m->length == GIL_LOG_BYTES && !start && !new_log && length != sizeof(uint32_t) && first + length > IMPATIENT)
        return 0;
#endif
    store(m, first, first + length);
    return 0;
}
