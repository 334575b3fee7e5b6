/* gilboreth.h: the lock table of one server, and the note-and-write path of one stripe.
 *
 * Link with libgilboreth.a (x86-64). `pkg-config --cflags --libs gilboreth` gives the flags.
 * The code of its calls is proved. For every input their contracts allow one answer, and one later content
 * of each buffer.
 *
 * In this file:
 *   1. Rules that no code can check. Read these first.
 *   2. Cuts: what must be durable, and in which order.
 *   3. Sizes, limits and codes.
 *   4. Refusals, and what to do about each.
 *   5. The lock table: request, acknowledge, downgrade, release, and their events; lists of requests.
 *   6. The stripe: note, write, restart, compact.
 */
#ifndef GILBORETH_H
#define GILBORETH_H

#include <stddef.h>
#include <stdint.h>

#ifdef __cplusplus
extern "C" {
#endif

#define GIL_VERSION "0.4.0"

/* 1. Rules that no code can check
 *
 * Each call judges every number and every byte that it is lent, and refuses what is wrong.
 * These things it can't see, so they are yours:
 *
 *   - The buffers of one call don't overlap.
 *   - A pointer is null only where its length is 0. Such a buffer is answered as an empty one. (The proof
 *     speaks of buffers that are there; for null pointers this is tested, for every buffer of every call.)
 *   - Each buffer has at least the length that is passed with it. A list's items are a buffer like the others;
 *     how many they are is passed, not how many bytes.
 *   - One call at a time on a buffer. Nothing else reads or changes it until the call returns.
 *     Calls on different buffers may run at the same time.
 *   - Table, map and log start as zero bytes: that is the empty table, the empty map, the empty log.
 *     After that each call is lent what the last call left. Never go back to an older copy, nor after a turn
 *     (part 2) to the log before it.
 *   - The image has one length as long as its log is in use. Every note is told that length.
 *   - A piece is noted with the number of the lock it was written under, and inside its range.
 *   - Pieces of equal number and equal pass agree wherever they overlap: the clients count passes for that, as below.
 *   - A table that starts again numbers its grants from 1, and their pieces then lose against the entries
 *     of older grants. So make the table as durable as the logs. If it has to start again, start every
 *     log again first (part 2).
 *
 * What no call ever does: it allocates nothing, blocks on nothing, reads and writes no file, keeps no
 * pointer and no state between calls, and touches no byte outside the lent buffers. It always returns.
 * It needs memcpy, memmove and memset, and less than 64 KB of stack.
 *
 * A refused call changes no byte of any buffer.
 *
 * Passes. A client may flush, keep its lock, and write the same bytes again. A resend of the first flush must not beat
 * the second, so each piece carries a pass: its age is judged by number first and pass second. The client counts:
 *   - From 1 under each lock, with one count for the lock, from its grant to its release. A downgrade does not change
 *     that. The next lock has a greater number, so it starts at 1 again.
 *   - A new piece gets the present pass at the moment when its bytes are copied from the cache, whenever they were
 *     written. No new piece is made under an earlier pass.
 *   - Before the client writes anew to a byte that it has copied into a piece of the present pass, it takes the next
 *     pass. Simplest is one pass for each flush. Passes may be skipped.
 *   - It may count on at any time, also while pieces of earlier passes are not confirmed.
 *   - A resend has the same bytes, number and pass. So the client keeps each piece as it was sent until its write is
 *     confirmed.
 *   - Pieces of earlier passes have to be written to the end like any other. One that is noted and not written holds
 *     nothing back, but leaves its bytes undone where no later one covers them.
 *   - At GIL_HIGHEST_PASS it flushes, releases the lock, and requests again.
 *
 * A client that starts again and has lost its count, or pieces that were not confirmed, sends nothing more under the
 * locks that it still holds: it could use a pass twice. What it had cached is lost, and bytes of a piece that was noted
 * and not written to its end hold what the cut left there; of these the end of part 2 promises nothing. The client
 * releases the locks, though not every piece is written, requests anew, and writes again every byte that it may have
 * flushed without an answer: then a greater pair owns it.
 */

/* 2. Cuts: what must be durable, and in which order
 *
 * A cut ends the daemon at any place: a kill, a crash, a loss of power. Log and image survive it, the map
 * is lost. With the rules below, what a cut leaves is always enough to go on from.
 *
 * A note. gil_note changes two places of the log: the new entry's 24 bytes at gil_entry_place(n), where n
 * is the count before the call, and the count, which is the first 4 bytes. Carry them out like this:
 *   1. Lend gil_note a copy of the log in memory, never the stored log: it can't wait between its stores.
 *   2. Put down the entry's 24 bytes. Wait until they are durable (fsync, msync).
 *   3. Put down the count's 4 bytes as one store. Wait until they are durable.
 *   4. Only now is the piece noted: tell its client so, or write it. No byte of it goes into the image before.
 * A cut before step 3 leaves the old log, since bytes after the last entry may be anything. A cut after it
 * leaves the new one. With the count first, a cut could leave an entry made of whatever stood there.
 *
 * A write. A cut leaves any bytes at the places that this write would store, and changes none elsewhere.
 * So answer the client only once the image's bytes are durable. Until then the write counts as cut: the
 * client keeps the piece, and sends its write again, with the same number and pass, until one ran to its end.
 *
 * A message, or a list. A cut amid a call on the stored table could leave one that is not sound. So lend a copy. When
 * the call has returned, put the new table down whole beside the old one, and turn to it by one step, as a
 * rename. Send the events only once that is durable: a grant that the table forgets would be given twice.
 *
 * After a cut, and at every start: read the log as it is stored, and call gil_restart on it. No note and no write
 * before a restart has answered 0, and before what you read is durable: what a killed daemon stored may not be yet.
 * If the storage fails while you put something down or wait for it, go on as after a cut.
 *
 * Room in the log. A log has at most 2,048 entries, so GIL_MAX_ENTRIES - gil_count(log) more notes fit. gil_compact
 * makes a log that has the same map, with an entry for each of its runs: at most 1,024, but these may be more than
 * the old log had. So compact when the log is nearly full, as the example daemon does at 2,000 entries:
 *   1. Let each note that is under way come to its step 4, and begin no other.
 *   2. Lend gil_compact the log in memory, and a second buffer.
 *   3. Put the new log down, whole, where the stored log is not. Wait until it is durable.
 *   4. Turn to it: one store, of a word that says which log is the stored one, or a rename. Wait until it is durable.
 *      After a rename open the file anew: what was opened or mapped before is still the old one.
 *   5. Only now may notes begin again, on the new log. The map stays as it is.
 * A cut finds either log, and both have the same map. After a cut the log is the one that the word names, or that
 * has the name. What stands in the other is of no use: compact anew.
 * No note between step 1 and step 5: its entry would stand in the old log alone, and be lost by the turn. If one was
 * accepted before the turn all the same, begin again at step 1. Writes and restarts may come between.
 *
 * Room in the map. A map has at most 1,024 runs, and a note that needs more is refused with RUNS. A holder that
 * can't note can't write, and so can't release: where no other holder's piece makes room, it is stuck for ever.
 * Compaction does not help, since it leaves the map as it is. So for each stripe count
 *   - the runs: gil_count(map);
 *   - the outstanding pieces, that may still be noted: those of the holders of write locks, and those of the
 *     write requests that wait, since any call may grant them. Agree with the clients how many pieces there
 *     are under one lock at most, of all its passes together: what is flushed again under a later pass is another
 *     piece. A client writes no more under a lock than so many pieces can flush; then it releases the lock, and
 *     requests again.
 * Hand in a write request only while runs and outstanding pieces, its own too, are together at most 512. Then
 * every outstanding piece fits, wherever it lies and in whatever order they come: the map of n entries has at
 * most 2n - 1 runs. (One piece may add many runs: an old one fills every gap between newer ones.)
 * A piece that is noted again, with its own pass, does not count again. gil_pieces_that_fit says how many pieces may be
 * outstanding.
 * When they are too many, hold back the clients' write requests for this stripe, let the holders flush and release,
 * and start the log again.
 *
 * A log that starts again. Only when no older piece can come any more: every write lock of the stripe is
 * released, and every noted piece is written, or lost with its client (part 1). Then put down 0 for the count of the stored log as one store, wait
 * until it is durable, and restart: log and map are empty. Keep the table: its numbers go on rising.
 * A way there: request PW for bytes 0 to EOF of the stripe, for a client number of your own. It has no pieces, so it
 * may be handed in at any time. It asks every lock of the stripe back, and later requests wait behind it. Once it is
 * granted no other lock of the stripe is held: start the log again, and release it.
 *
 * What this gives (proved of a run from an empty log on, with cuts anywhere, and compactions and turns among the
 * steps, where pieces of equal number and equal pass agree wherever they overlap): once each noted piece had a write
 * accepted, and the last accepted write of every piece ran to its end, each byte under a noted piece is that of the
 * noted piece with the greatest number there, and among those of that number the greatest pass, and every other byte is
 * as it began.
 */

/* 3. Sizes, limits and codes
 *
 * The buffers are XDR (RFC 4506): big-endian, 4 or 8 bytes a number, an array as its 4-byte count and
 * then its elements.
 *
 * Until there were lists a record had 40 bytes, and a table 10,312. Such a table is refused with TABLE. To go
 * on with one, put 4 zero bytes after each of its records, and zeros after the last one up to 11,336.
 *
 * Until there were passes a run and an entry had 20 bytes, a map 20,484 and a log 40,964. Such a map is refused with
 * MAP, and such a log with LOG. The way to go on: with the library as it was, let every holder of the stripe flush and
 * release, as for a log that starts again (part 2), and then start with a log of zeros.
 * Where that can't be, and only if no byte was flushed twice under a lock of which a piece may still come: put pass 1,
 * the bytes 0, 0, 0 and 1, after the number of each of the log's entries, and zeros after the last one up to 49,156; the
 * count stays. Put the new log down beside the old one, and turn to it as to a compacted one (part 2). The map comes from
 * a restart. Pieces that are still out are then of pass 1, and each lock that is still held is in its pass 1. (Two
 * flushes of one byte would both be of pass 1, and the one that comes last would stand.)
 */
#define GIL_TABLE_BYTES 11336       /* handles issued, 16 last numbers, array of records; zeros after it */
#define GIL_EVENTS_BYTES 11268      /* array of events; bytes after it stay as they are */
#define GIL_LIST_EVENTS_BYTES 22532 /* the same for gil_request_list */
#define GIL_MAP_BYTES 24580         /* array of runs; zeros after it */
#define GIL_LOG_BYTES 49156         /* array of entries; bytes after it may be anything */

#define GIL_BYTES_SHOWN 40 /* of a record: handle, client, stripe, mode, state, number; first, last: 8 bytes each */
#define GIL_BYTES_PER_RECORD (GIL_BYTES_SHOWN + 4) /* what is shown; then 1 while a marked request waits, else 0 */
#define GIL_BYTES_PER_EVENT (4 + GIL_BYTES_SHOWN)  /* kind, and then what is shown of the record */
#define GIL_BYTES_PER_RUN 24    /* first, last: 8 bytes each; number, pass. An entry of the log has the same shape. */

#define GIL_MAX_CLIENTS 64      /* clients are 0 to 63 */
#define GIL_MAX_STRIPES 16      /* stripes are 0 to 15 */
#define GIL_MAX_RECORDS 256     /* held locks and waiting requests of a table */
#define GIL_MAX_EVENTS 256      /* events of a message */
#define GIL_MAX_ITEMS 64        /* items of a list */
#define GIL_MAX_LIST_EVENTS 512 /* events of a list */
#define GIL_MAX_RUNS 1024       /* runs of a map */
#define GIL_MAX_ENTRIES 2048    /* entries of a log */

#define GIL_HIGHEST UINT64_C(4294967295)      /* the highest handle, and the highest number */
#define GIL_HIGHEST_PASS UINT64_C(4294967295) /* the highest pass */
#define GIL_EOF UINT64_C(9223372036854775807) /* the last byte that a range can have */

/* Modes. */
#define GIL_MODE_PR 1  /* read; other PR locks may share its bytes */
#define GIL_MODE_NBW 2 /* write; once it is canceling, NBW and BW may be granted over it */
#define GIL_MODE_BW 3  /* write; nothing is granted over it; once canceling, it may be downgraded to NBW */
#define GIL_MODE_PW 4  /* read and write; nothing is granted over it; once canceling, it may be downgraded */

/* States. A record in one of the last three is held. */
#define GIL_STATE_WAITING 0   /* a request that is not granted yet */
#define GIL_STATE_GRANTED 1   /* granted, and no revocation is sent */
#define GIL_STATE_ASKED 2     /* its revocation is sent, and not acknowledged yet */
#define GIL_STATE_CANCELING 3 /* acknowledged, or granted so: its holder flushes and releases it */

/* Kinds of event. */
#define GIL_EVENT_GRANT 1
#define GIL_EVENT_REVOCATION 2

/* 4. Refusals
 *
 * A call judges its refusals in the order that its comment lists. The first that holds is answered.
 */
#define GIL_ACCEPTED 0
#define GIL_REFUSED_EVENT_BUFFER 1  /* event buffer under 11,268 bytes, for a list under 22,532 */
#define GIL_REFUSED_TABLE 2         /* table of another length, or not sound */
#define GIL_REFUSED_CLIENT 3        /* client above 63 */
#define GIL_REFUSED_STRIPE 4        /* stripe above 15 */
#define GIL_REFUSED_MODE 5          /* mode not 1 to 4 */
#define GIL_REFUSED_RANGE 6         /* first above last, or last above EOF */
#define GIL_REFUSED_HANDLES 7       /* 4,294,967,295 handles issued */
#define GIL_REFUSED_RECORDS 8       /* 256 records in use */
#define GIL_REFUSED_NO_RECORD 9     /* no record with this handle */
#define GIL_REFUSED_OTHER_CLIENT 10 /* record of another client */
#define GIL_REFUSED_STATE 11        /* acknowledge not in state 2; downgrade unless canceling BW or PW */
#define GIL_REFUSED_MAP 12          /* map of another length, or not sound */
#define GIL_REFUSED_LOG 13          /* log of another length, or not sound; second log of another length */
#define GIL_REFUSED_PIECE 14        /* piece of length 0, past the image or past EOF */
#define GIL_REFUSED_NUMBER 15       /* number or pass 0 or above 4,294,967,295 */
#define GIL_REFUSED_RUNS 16         /* the resulting map needs over 1,024 runs */
#define GIL_REFUSED_ENTRIES 17      /* log holds 2,048 entries */
#define GIL_REFUSED_SMALLER 18      /* some byte of the piece has a smaller pair in the map: number first, pass second */
#define GIL_REFUSED_ITEMS 19        /* list of more than 64 items */

/* Says what happened, and what to do about it. The text is constant and never null. The Rust library has its
 * sentences from here. */
static inline const char *gil_refusal_text(uint64_t refusal)
{
    switch (refusal) {
    case GIL_ACCEPTED:
        return "Accepted.";
    case GIL_REFUSED_EVENT_BUFFER:
        return "The event buffer is too short: lend 11,268 bytes, and for a list 22,532.";
    case GIL_REFUSED_TABLE:
        return "The table has another length, or is not sound: lend the 11,336 bytes that the last call left; "
               "all zeros is the empty table.";
    case GIL_REFUSED_CLIENT:
        return "The client is above 63: number the clients from 0 to 63.";
    case GIL_REFUSED_STRIPE:
        return "The stripe is above 15: number the stripes from 0 to 15.";
    case GIL_REFUSED_MODE:
        return "The mode is unknown: ask for 1 PR, 2 NBW, 3 BW or 4 PW.";
    case GIL_REFUSED_RANGE:
        return "The range is not valid: ask for a first byte that is at most the last, and a last byte of at most EOF.";
    case GIL_REFUSED_HANDLES:
        return "All 4,294,967,295 handles are issued: let every client flush and release, then start every log "
               "again, and then the table.";
    case GIL_REFUSED_RECORDS:
        return "The table is full with 256 records: request again after a release.";
    case GIL_REFUSED_NO_RECORD:
        return "No record has this handle: it was released before, or never answered; forget it.";
    case GIL_REFUSED_OTHER_CLIENT:
        return "The handle is another client's: name it with the client that requested it.";
    case GIL_REFUSED_STATE:
        return "The record is not in the state for this: acknowledge once, after a revocation; downgrade only a "
               "canceling BW or PW.";
    case GIL_REFUSED_MAP:
        return "The map has another length, or is not sound: lend 24,580 bytes, and fill them from the log by a restart.";
    case GIL_REFUSED_LOG:
        return "The log has another length, or is not sound: lend its 49,156 bytes as stored, and to compact it a second "
               "buffer as long; a log of 40,964 bytes has no passes, and gilboreth.h, part 3, says how to go on with it; "
               "if its bytes are damaged, stop serving this stripe and bring back the log.";
    case GIL_REFUSED_PIECE:
        return "The piece is empty, or ends past the image or past EOF: send at least one byte, all inside the image.";
    case GIL_REFUSED_NUMBER:
        return "The number or the pass is 0 or above 4,294,967,295: send the number that the lock's grant carried, and a "
               "pass that is counted from 1 under this lock; at the highest pass flush, release and request again.";
    case GIL_REFUSED_RUNS:
        return "The map would need over 1,024 runs: nothing is lost, the holder keeps the piece; let others flush and "
               "note it again, since a newer piece over several runs makes room; the rule on room in the map "
               "(gilboreth.h, part 2) keeps clear of this. Of a restart or a compaction: no notes made this log, so do "
               "as for a damaged one.";
    case GIL_REFUSED_ENTRIES:
        return "The log is full with 2,048 entries: compact it, turn to the new log, and note again.";
    case GIL_REFUSED_SMALLER:
        return "A byte of the piece has a smaller number in the map, or an equal number and a smaller pass: note the "
               "piece first, then write it again.";
    case GIL_REFUSED_ITEMS:
        return "The list has more than 64 items: hand it in as lists of at most 64, one after the other.";
    default:
        return "This is not a refusal number of this library.";
    }
}

/* A compiler that knows this attribute warns of an answer that nobody looks at. */
#if defined(__GNUC__)
#define GIL_CHECKED __attribute__((warn_unused_result))
#else
#define GIL_CHECKED
#endif

/* Reads a number of 4 or 8 bytes as XDR has it. */
static inline uint32_t gil_u32_at(const uint8_t *bytes)
{
    return (uint32_t)bytes[0] << 24 | (uint32_t)bytes[1] << 16 | (uint32_t)bytes[2] << 8 | (uint32_t)bytes[3];
}
static inline uint64_t gil_u64_at(const uint8_t *bytes)
{
    return (uint64_t)gil_u32_at(bytes) << 32 | gil_u32_at(bytes + 4);
}

/* How many elements an array has: events of an event buffer, runs of a map, entries of a log. */
static inline uint32_t gil_count(const uint8_t *array)
{
    return gil_u32_at(array);
}

/* 5. The lock table
 *
 * Four messages of the clients: request, acknowledge, downgrade, release. A served message changes the
 * table and settles it: every waiting request that nothing stands against any more is granted in this very
 * call, and every lock that a waiting request then wants is asked back. What follows for the clients stands
 * in the event buffer: first grants in rising handle, then revocations in rising handle. Send each event to
 * its client, in this order.
 *
 * Nobody starves. On a table that started empty a request waits only for records that were there before it,
 * and none that comes later is granted in its way. It is granted in the very call in which the last of those
 * that stand in its way goes; the request with the smallest handle never waits. So where clients release each
 * lock that is asked back, and each that was granted canceling, every request is granted in the end.
 *
 * A client that knows what it is going to write asks ahead, with a list of requests in one call. These are
 * marked: their grants end where they asked, and are not widened over what other clients are going to write.
 */

/* What a message or a list answers. If refusal is not 0, the other two are 0. */
typedef struct {
    uint64_t refusal; /* 0, or a GIL_REFUSED_ number */
    uint64_t handle;  /* the handle that the call made (request) or named (the others); 0 of a list */
    uint64_t events;  /* how many events stand in the event buffer */
} gil_answer;

/* What a client is told: the kind of the event, and then what is shown of the record as the call leaves it, or
 * in a list, as the item leaves it: a lock may be granted and asked back in one list.
 *
 * A grant: the client holds the lock from now on, over first to last. That may be more than a gil_request
 * asked for; of a list it is what the item asked for.
 * If its state is GIL_STATE_CANCELING, others wait for it already: no revocation and no acknowledge follow,
 * the client does the one operation that it asked for, flushes and releases.
 *
 * A revocation: others wait for the lock. The client acknowledges it and starts nothing more under it. Once
 * its operations are done it may downgrade a BW or PW. It flushes what it cached, and then releases the lock.
 *
 * The number is what the pieces written under this lock are noted and written with; their passes the client counts,
 * from 1 (part 1). PR locks have 0.
 */
typedef struct {
    uint32_t kind; /* GIL_EVENT_GRANT or GIL_EVENT_REVOCATION */
    uint32_t handle;
    uint32_t client;
    uint32_t stripe;
    uint32_t mode;  /* GIL_MODE_.. */
    uint32_t state; /* GIL_STATE_.. */
    uint32_t number;
    uint64_t first;
    uint64_t last;
} gil_event;

/* Reads event i of an event buffer. i is below the answer's events. */
static inline gil_event gil_event_at(const uint8_t *events, size_t i)
{
    const uint8_t *event = events + 4 + GIL_BYTES_PER_EVENT * i;
    const uint8_t *shown = event + 4;
    gil_event e;
    e.kind = gil_u32_at(event);
    e.handle = gil_u32_at(shown);
    e.client = gil_u32_at(shown + 4);
    e.stripe = gil_u32_at(shown + 8);
    e.mode = gil_u32_at(shown + 12);
    e.state = gil_u32_at(shown + 16);
    e.number = gil_u32_at(shown + 20);
    e.first = gil_u64_at(shown + 24);
    e.last = gil_u64_at(shown + 32);
    return e;
}

/* Asks for a lock.
 *
 * Takes: the table; the event buffer, whose content does not matter; who asks, for which stripe, in which
 *   mode, for which bytes. Ranges include both ends.
 * Answers: the new handle. The lock itself comes as a grant event with this handle, in this call or in a
 *   later one. Until then the request waits, and gil_release withdraws it.
 * Never: grants over a lock or an earlier waiting request that conflicts, a client's own ones included;
 *   gives a number twice in a stripe, or a handle twice in a table.
 * Refusals, in this order: EVENT_BUFFER, TABLE, CLIENT, STRIPE, MODE, RANGE, HANDLES, RECORDS.
 */
GIL_CHECKED gil_answer gil_request(uint8_t *table, size_t table_len, uint8_t *events, size_t events_len,
                                   uint64_t client, uint64_t stripe, uint64_t mode, uint64_t first, uint64_t last);

/* An item of a list: a request, and its answer. */
typedef struct {
    uint64_t client; /* what is asked stays as it is: who asks, for which stripe, in which mode, for which bytes */
    uint64_t stripe;
    uint64_t mode;
    uint64_t first;
    uint64_t last;
    uint64_t refusal; /* the answer, which the list stores: 0, or a GIL_REFUSED_ number */
    uint64_t handle;  /* the new handle; 0 where the item is refused */
    uint64_t events;  /* how many of the list's events are this item's */
} gil_item;

/* Asks for a list of locks ahead of a write, in one call. docs/C.md has an example.
 *
 * Takes: the table; an event buffer of GIL_LIST_EVENTS_BYTES, whose content does not matter; the items, with
 *   what each asks for. Their answers may hold anything.
 * Answers: handle 0, and how many events stand in the event buffer: those of item 0, then those of item 1, and
 *   so on. Each item gets the answer that its request, marked, would get alone on the table that the items
 *   before it left. An item that is refused changes nothing but its own answer, and the list goes on.
 * Never: widens a grant of these requests, in this call or in a later one; settles the table or sends an event
 *   where no item is accepted; changes an item where the list is refused.
 * Refusals, in this order: EVENT_BUFFER, TABLE, ITEMS; in each item CLIENT, STRIPE, MODE, RANGE, HANDLES, RECORDS.
 */
GIL_CHECKED gil_answer gil_request_list(uint8_t *table, size_t table_len, uint8_t *events, size_t events_len,
                                        gil_item *items, size_t count);

/* Replies to a revocation: the lock goes from asked to canceling.
 *
 * Takes: the table, the event buffer, the client, and the handle of its lock.
 * Answers: the same handle. If it is an NBW lock, NBW and BW requests that it alone stopped are granted.
 * Never: ends the lock. Its holder flushes, and calls gil_release.
 * Refusals, in this order: EVENT_BUFFER, TABLE, CLIENT, NO_RECORD, OTHER_CLIENT, STATE.
 */
GIL_CHECKED gil_answer gil_acknowledge(uint8_t *table, size_t table_len, uint8_t *events, size_t events_len,
                                       uint64_t client, uint64_t handle);

/* Makes a canceling BW or PW lock a canceling NBW lock, so that NBW and BW may be granted over it.
 *
 * Takes: the table, the event buffer, the client, and the handle of its lock.
 * Answers: the same handle.
 * Never: changes the lock's range, state or number. A second downgrade is refused with STATE.
 * Refusals, in this order: EVENT_BUFFER, TABLE, CLIENT, NO_RECORD, OTHER_CLIENT, STATE.
 */
GIL_CHECKED gil_answer gil_downgrade(uint8_t *table, size_t table_len, uint8_t *events, size_t events_len,
                                     uint64_t client, uint64_t handle);

/* Gives a lock back in any state, or withdraws a waiting request.
 *
 * Takes: the table, the event buffer, the client, and the handle.
 * Answers: the same handle, which no record has from now on. Its record's room is used again.
 * Never: waits for the lock's pieces. Release only once each of them, of every pass, is written; a client that has lost
 *   them goes by 'Passes' in part 1.
 * Refusals, in this order: EVENT_BUFFER, TABLE, CLIENT, NO_RECORD, OTHER_CLIENT.
 */
GIL_CHECKED gil_answer gil_release(uint8_t *table, size_t table_len, uint8_t *events, size_t events_len,
                                   uint64_t client, uint64_t handle);

/* 6. The stripe
 *
 * A client flushes a piece: bytes from a first byte on, with the number of the lock they were written under, and
 * a pass. First the piece is noted, then it is written. Pieces may come in any order, and again.
 * Number and pass are a pair. Of two pairs the greater one has the greater number or, where the numbers are equal, the
 * greater pass. The map has the greatest noted pair of each byte. It lives in memory alone, and comes from the log.
 * The log grows with each note, until it is compacted: then it has an entry for each run of the map.
 */

/* Where entry i of a log starts, counted in bytes from the log's start. Entries count from 0. */
static inline size_t gil_entry_place(size_t i)
{
    return 4 + GIL_BYTES_PER_RUN * i;
}

/* How many pieces fit this map for sure, wherever they lie: 512 less its runs, since r runs and n pieces make at
 * most 2 (r + n) - 1 runs. Pieces of every pass count. More may fit. The rule that this serves is 'Room in the map' in
 * part 2. */
static inline uint32_t gil_pieces_that_fit(const uint8_t *map)
{
    uint32_t runs = gil_count(map);
    return runs < GIL_MAX_RUNS / 2 ? GIL_MAX_RUNS / 2 - runs : 0;
}

/* Notes a piece: appends its entry to the log, and raises the pair of each of its bytes in the map to the piece's where
 * that is greater.
 *
 * Takes: map and log of the stripe; the piece's first byte, its length, its number and its pass; the image's length.
 * Answers: 0, or the refusal. After 0 carry entry and count out, in the order of part 2 above.
 * Never: changes an earlier entry, or a byte of the log other than the new entry's 24 and the count's 4;
 *   lowers a byte's pair. A piece may be noted again, which takes one more entry.
 * Refusals, in this order: MAP, LOG, PIECE, NUMBER, RUNS, ENTRIES.
 */
GIL_CHECKED uint64_t gil_note(uint8_t *map, size_t map_len, uint8_t *log, size_t log_len,
                              uint64_t first, uint64_t length, uint64_t number, uint64_t pass,
                              uint64_t image_length);

/* Writes a noted piece: stores its bytes in the image exactly where the map has the piece's pair, number and pass.
 *
 * Takes: the map; the whole image; the piece's first byte, its bytes, its number and its pass.
 * Answers: 0, or the refusal. 0 also where nothing was stored because greater pairs are noted everywhere.
 * Never: changes the map, a byte of the image outside the piece, or a byte where the map has another pair.
 *   The same piece may be written again: a resend after a cut is accepted, and one of an earlier pass beats no later one.
 * Refusals, in this order: MAP, PIECE, NUMBER, SMALLER.
 */
GIL_CHECKED uint64_t gil_write(const uint8_t *map, size_t map_len, uint8_t *image, size_t image_len,
                               uint64_t first, const uint8_t *piece, size_t piece_len, uint64_t number,
                               uint64_t pass);

/* Fills the map from the log. After a cut, and at every start, this comes before any note or write.
 *
 * Takes: a map buffer, whose content does not matter; the log.
 * Answers: 0, or the refusal. A log made by notes and turns alone, with cuts, is never refused.
 * Never: changes the log.
 * Refusals, in this order: MAP (its length only), LOG, RUNS.
 */
GIL_CHECKED uint64_t gil_restart(uint8_t *map, size_t map_len, const uint8_t *log, size_t log_len);

/* Fills a second log with an entry for each run of the old log's map, rising, zeros after.
 *
 * Takes: the log; a second buffer of GIL_LOG_BYTES, whose content does not matter.
 * Answers: 0, or the refusal. After 0 turn to the new log before the next note, as part 2 says. It has at most
 *   1,024 entries, so at least 1,024 notes follow before ENTRIES. A log made by notes and turns alone, with cuts,
 *   is never refused.
 * Never: changes the old log, or what a restart makes of it: the new log has the same map. To compact it again
 *   changes nothing.
 * Refusals, in this order: LOG (the length of either buffer too), RUNS.
 */
GIL_CHECKED uint64_t gil_compact(const uint8_t *old_log, size_t old_len, uint8_t *new_log, size_t new_len);

#ifdef __cplusplus
}
#endif

#endif
