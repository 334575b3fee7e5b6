/* trap.c: linked around the calls, mmap and msync (--wrap), this kills a program inside of a call, or between two of its
 * stores.
 *
 * GIL_CUT is a seed; if it is not 0, it chooses one of the places below, and how often it is passed before the kill. No kill
 * from outside is so sure to meet a call: inside of gil_write the image can't be stored to but for its two pages that were
 * stored to last, so the program is stopped before each page that the call goes on to, and may be killed there. So it is
 * with the new log inside of gil_compact, which is filled with other bytes before, so that kills.py sees how far it came.
 *
 * -DWRITE=.. names a gil_write of wrong.c that is called in place of the library's.
 */
#define _POSIX_C_SOURCE 200809L
#include <gilboreth.h>
#include <signal.h>
#include <stdlib.h>
#include <string.h>
#include <sys/mman.h>
#include <unistd.h>

#ifndef WRITE
#define WRITE __real_gil_write
#endif

uint64_t WRITE(const uint8_t *map, size_t map_len, uint8_t *image, size_t image_len, uint64_t first,
               const uint8_t *piece, size_t piece_len, uint64_t number, uint64_t pass);
uint64_t __wrap_gil_write(const uint8_t *map, size_t map_len, uint8_t *image, size_t image_len, uint64_t first,
                          const uint8_t *piece, size_t piece_len, uint64_t number, uint64_t pass);
uint64_t __real_gil_note(uint8_t *map, size_t map_len, uint8_t *log, size_t log_len, uint64_t first, uint64_t length,
                         uint64_t number, uint64_t pass, uint64_t image_length);
uint64_t __wrap_gil_note(uint8_t *map, size_t map_len, uint8_t *log, size_t log_len, uint64_t first, uint64_t length,
                         uint64_t number, uint64_t pass, uint64_t image_length);
uint64_t __real_gil_restart(uint8_t *map, size_t map_len, const uint8_t *log, size_t log_len);
uint64_t __wrap_gil_restart(uint8_t *map, size_t map_len, const uint8_t *log, size_t log_len);
uint64_t __real_gil_compact(const uint8_t *old_log, size_t old_len, uint8_t *new_log, size_t new_len);
uint64_t __wrap_gil_compact(const uint8_t *old_log, size_t old_len, uint8_t *new_log, size_t new_len);
void *__real_mmap(void *address, size_t length, int protection, int flags, int file, off_t offset);
void *__wrap_mmap(void *address, size_t length, int protection, int flags, int file, off_t offset);
int __real_msync(void *address, size_t length, int flags);
int __wrap_msync(void *address, size_t length, int flags);

/* Where a kill comes, and how often it is passed at most before that. */
enum place { RESTART, NOTE, ENTRY, COUNT, BEFORE_WRITE, PAGE, WRITTEN, LOG_PAGE, NEW_LOG, TURN, PLACES };
static const int most[PLACES] = {4, 40, 20, 20, 20, 120, 20, 14, 1, 1};

/* What a call stores to page by page, and the place that each page is. */
static struct {
    uint8_t *at, *open_pages[2];
    size_t length;
    enum place page;
} lent;
static uint8_t *image_at, *turn_at;
static size_t image_length, page;
static int restarted; /* what is waited for before the first restart is none of the places */

/* The program is at this place. */
static void at(enum place reached)
{
    static int chosen = -1, left;
    if (chosen < 0) {
        const char *seed = getenv("GIL_CUT");
        srand(seed == NULL ? 0 : (unsigned)strtoul(seed, NULL, 10));
        chosen = rand() % (2 * PLACES);
        chosen = chosen < PLACES ? chosen : PAGE; /* most often amid the bytes of a write */
        left = seed == NULL || strcmp(seed, "0") == 0 ? -1 : rand() % most[chosen];
    }
    if ((int)reached == chosen && left-- == 0)
        raise(SIGKILL);
}

/* The call goes on to another page of what it is lent. A store may lie over two pages, so two stay open. */
static void next_page(int signal, siginfo_t *fault, void *context)
{
    uint8_t *address = fault->si_addr, *stored;
    (void)signal;
    (void)context;
    if (address < lent.at || address >= lent.at + lent.length)
        abort();
    at(lent.page);
    stored = lent.at + (size_t)(address - lent.at) / page * page;
    if (lent.open_pages[0] != NULL && lent.open_pages[0] != stored)
        mprotect(lent.open_pages[0], page, PROT_READ);
    lent.open_pages[0] = lent.open_pages[1];
    lent.open_pages[1] = stored;
    mprotect(stored, page, PROT_READ | PROT_WRITE);
}

static void lend(uint8_t *bytes, size_t length, enum place each_page)
{
    struct sigaction action;
    memset(&action, 0, sizeof action);
    action.sa_sigaction = next_page;
    action.sa_flags = SA_SIGINFO;
    page = (size_t)sysconf(_SC_PAGESIZE);
    lent.at = bytes;
    lent.length = length;
    lent.page = each_page;
    lent.open_pages[0] = lent.open_pages[1] = NULL;
    if (sigaction(SIGSEGV, &action, NULL) != 0 || mprotect(bytes, length, PROT_READ) != 0)
        abort();
}

static void take_back(void)
{
    if (mprotect(lent.at, lent.length, PROT_READ | PROT_WRITE) != 0)
        abort();
}

uint64_t __wrap_gil_write(const uint8_t *map, size_t map_len, uint8_t *image, size_t image_len, uint64_t first,
                          const uint8_t *piece, size_t piece_len, uint64_t number, uint64_t pass)
{
    image_at = image;
    image_length = image_len;
    at(BEFORE_WRITE);
    lend(image, image_len, PAGE);
    uint64_t refusal = WRITE(map, map_len, image, image_len, first, piece, piece_len, number, pass);
    take_back();
    return refusal;
}

uint64_t __wrap_gil_compact(const uint8_t *old_log, size_t old_len, uint8_t *new_log, size_t new_len)
{
    memset(new_log, 0xa5, new_len);
    lend(new_log, new_len, LOG_PAGE);
    uint64_t refusal = __real_gil_compact(old_log, old_len, new_log, new_len);
    take_back();
    return refusal;
}

uint64_t __wrap_gil_note(uint8_t *map, size_t map_len, uint8_t *log, size_t log_len, uint64_t first, uint64_t length,
                         uint64_t number, uint64_t pass, uint64_t image_len)
{
    at(NOTE);
    uint64_t refusal = __real_gil_note(map, map_len, log, log_len, first, length, number, pass, image_len);
    at(NOTE);
    return refusal;
}

uint64_t __wrap_gil_restart(uint8_t *map, size_t map_len, const uint8_t *log, size_t log_len)
{
    at(RESTART);
    uint64_t refusal = __real_gil_restart(map, map_len, log, log_len);
    at(RESTART);
    restarted = 1;
    return refusal;
}

/* The file of one word is the one that says which log is the stored one. */
void *__wrap_mmap(void *address, size_t length, int protection, int flags, int file, off_t offset)
{
    void *mapped = __real_mmap(address, length, protection, flags, file, offset);
    if (length == sizeof(uint32_t))
        turn_at = mapped;
    return mapped;
}

/* What was stored is not waited for yet: bytes of the image, the word, a new log, the count alone, or an entry. */
int __wrap_msync(void *address, size_t length, int flags)
{
    uint8_t *stored = address;
    if (image_at != NULL && stored >= image_at && stored < image_at + image_length)
        at(WRITTEN);
    else if (restarted)
        at(stored == turn_at ? TURN : length == GIL_LOG_BYTES ? NEW_LOG : length == sizeof(uint32_t) ? COUNT : ENTRY);
    return __real_msync(address, length, flags);
}
