/* caller.c: calls the entries as standard input says, a call a line, on buffers that a script puts in and takes out.
 *
 *     put BUFFER HEX      BUFFER is table, events, map, log, new_log, image or piece
 *     get BUFFER          answers its bytes in hex
 *     request CLIENT STRIPE MODE FIRST LAST
 *     acknowledge CLIENT HANDLE       and so downgrade, release
 *     note FIRST LENGTH NUMBER PASS   the image's length is that of the buffer
 *     write FIRST NUMBER PASS         of the bytes in piece
 *     restart
 *     compact                         of log into new_log
 *     item CLIENT STRIPE MODE FIRST LAST      puts it behind the items of the list to come, and answers how many they are
 *     list                                    requests this list
 *
 * A message answers refusal, handle and events; note, write, restart and compact the refusal. A list answers refusal, handle and
 * events, and then the eight numbers of each item.
 */
#define _POSIX_C_SOURCE 200809L
#include <gilboreth.h>
#include <inttypes.h>
#include <stdio.h>
#include <stdlib.h>
#include <string.h>

struct buffer {
    const char *name;
    size_t length;
    uint8_t *bytes;
};
enum { TABLE, EVENTS, MAP, LOG, NEW_LOG, IMAGE, PIECE, BUFFERS };
static struct buffer buffers[BUFFERS] = {{"table", 0, NULL},   {"events", 0, NULL}, {"map", 0, NULL},  {"log", 0, NULL},
                                         {"new_log", 0, NULL}, {"image", 0, NULL},  {"piece", 0, NULL}};
#define LENT(i) buffers[i].bytes, buffers[i].length

static struct buffer *buffer(const char *name)
{
    for (struct buffer *b = buffers; b < buffers + BUFFERS; b++)
        if (name != NULL && strcmp(b->name, name) == 0)
            return b;
    fprintf(stderr, "caller: no such buffer: %s\n", name == NULL ? "" : name);
    exit(1);
}

static int digit(char hex)
{
    return hex <= '9' ? hex - '0' : hex - 'a' + 10;
}

static void put(struct buffer *b, const char *hex)
{
    b->length = strlen(hex) / 2;
    free(b->bytes);
    b->bytes = malloc(b->length + 1); /* not null, also at length 0 */
    if (b->bytes == NULL)
        exit(1);
    for (size_t i = 0; i < b->length; i++)
        b->bytes[i] = (uint8_t)(16 * digit(hex[2 * i]) + digit(hex[2 * i + 1]));
}

static void get(const struct buffer *b)
{
    for (size_t i = 0; i < b->length; i++) {
        putchar_unlocked("0123456789abcdef"[b->bytes[i] / 16]);
        putchar_unlocked("0123456789abcdef"[b->bytes[i] % 16]);
    }
    putchar('\n');
}

static void message(gil_answer a)
{
    printf("%" PRIu64 " %" PRIu64 " %" PRIu64 "\n", a.refusal, a.handle, a.events);
}

static gil_item items[GIL_MAX_ITEMS + 1];
static size_t count;

static void item(const uint64_t n[5])
{
    if (count == sizeof items / sizeof *items)
        exit(1);
    items[count++] = (gil_item){n[0], n[1], n[2], n[3], n[4], UINT64_MAX, UINT64_MAX, UINT64_MAX};
    printf("%zu\n", count);
}

static void list(void)
{
    gil_answer a = gil_request_list(LENT(TABLE), LENT(EVENTS), items, count);
    printf("%" PRIu64 " %" PRIu64 " %" PRIu64, a.refusal, a.handle, a.events);
    for (gil_item *i = items; i < items + count; i++) {
        printf(" %" PRIu64 " %" PRIu64 " %" PRIu64 " %" PRIu64 " %" PRIu64, i->client, i->stripe, i->mode, i->first, i->last);
        printf(" %" PRIu64 " %" PRIu64 " %" PRIu64, i->refusal, i->handle, i->events);
    }
    putchar('\n');
    count = 0;
}

int main(void)
{
    char *line = NULL;
    size_t room = 0;
    for (int i = 0; i < BUFFERS; i++)
        put(&buffers[i], "");
    while (getline(&line, &room, stdin) > 0) {
        const char *name = strtok(line, " \n"), *words[5];
        uint64_t n[5];
        for (int i = 0; i < 5; i++) {
            words[i] = strtok(NULL, " \n");
            n[i] = words[i] == NULL ? 0 : strtoull(words[i], NULL, 10);
        }
        if (strcmp(name, "put") == 0) {
            put(buffer(words[0]), words[1] == NULL ? "" : words[1]);
            puts("0");
        } else if (strcmp(name, "get") == 0)
            get(buffer(words[0]));
        else if (strcmp(name, "request") == 0)
            message(gil_request(LENT(TABLE), LENT(EVENTS), n[0], n[1], n[2], n[3], n[4]));
        else if (strcmp(name, "item") == 0)
            item(n);
        else if (strcmp(name, "list") == 0)
            list();
        else if (strcmp(name, "acknowledge") == 0)
            message(gil_acknowledge(LENT(TABLE), LENT(EVENTS), n[0], n[1]));
        else if (strcmp(name, "downgrade") == 0)
            message(gil_downgrade(LENT(TABLE), LENT(EVENTS), n[0], n[1]));
        else if (strcmp(name, "release") == 0)
            message(gil_release(LENT(TABLE), LENT(EVENTS), n[0], n[1]));
        else if (strcmp(name, "note") == 0)
            printf("%" PRIu64 "\n", gil_note(LENT(MAP), LENT(LOG), n[0], n[1], n[2], n[3], buffers[IMAGE].length));
        else if (strcmp(name, "write") == 0)
            printf("%" PRIu64 "\n", gil_write(LENT(MAP), LENT(IMAGE), n[0], LENT(PIECE), n[1], n[2]));
        else if (strcmp(name, "restart") == 0)
            printf("%" PRIu64 "\n", gil_restart(LENT(MAP), LENT(LOG)));
        else if (strcmp(name, "compact") == 0)
            printf("%" PRIu64 "\n", gil_compact(LENT(LOG), LENT(NEW_LOG)));
        else {
            fprintf(stderr, "caller: no such call: %s\n", name);
            return 1;
        }
        fflush(stdout);
    }
    free(line);
    return 0;
}
