/* Runs one operation over the requests of a corpus of bench/corpus.py: read, write, view, edit, sheet, or none for the
   loop alone. With -DOURS it calls ref_* of include/refdesk.h, else plain_*.

       driver OPERATION CORPUS                 a line for each request: a checksum of the answer and of all outputs
       driver OPERATION CORPUS REPEAT COUNT    one line for the first COUNT requests, 0 for all: the sum of the answers,
                                               nanoseconds of processor time of REPEAT passes, requests in a pass

   A first pass is not timed: by it the emulator has translated the code, and the caches are filled. */
#include <stdio.h>
#include <stdlib.h>
#include <string.h>
#include <time.h>

#include "plain.h"
#ifdef OURS
#include "refdesk.h"
#define SIDE(operation) ref_##operation
#else
#define SIDE(operation) plain_##operation
#endif

enum { ROOM = 2048, PLACES = 100, LARGEST = 1 << 24, REMOVAL = 0xFFFF };

/* A request as corpus.py packs it. Behind it stand the category, the field, the new octets; up to a multiple of 4. */
struct head {
    int32_t record[PLAIN_RECORD];
    uint16_t places, room, n, m;
    uint8_t list, item;
};

struct request {
    const int32_t *record;     /* what is written */
    const uint8_t *input;      /* the category octet and the field */
    const uint8_t *octets;     /* the new item, NULL for a removal */
    size_t places, room, n, m; /* of a record's array, of an output, of the field, of the new octets */
    uint8_t list, item;
};

static int32_t kept[PLACES];
static uint8_t out[ROOM];

typedef uint64_t operation(const struct request *r);

static uint64_t do_none(const struct request *r)
{
    return r->n;
}

static uint64_t do_read(const struct request *r)
{
    return SIDE(read)(r->input[0], r->input + 1, r->n, kept, r->places);
}

static uint64_t do_write(const struct request *r)
{
    return SIDE(write)(r->record, r->places, out, r->room);
}

static uint64_t do_view(const struct request *r)
{
    return SIDE(view)(r->input[0], r->input + 1, r->n, r->item);
}

static uint64_t do_edit(const struct request *r)
{
    const uint8_t cat = r->input[0], *field = r->input + 1;
    if (r->octets) return SIDE(replace)(cat, field, r->n, r->list, r->item, r->octets, r->m, out, r->room);
    return SIDE(remove)(cat, field, r->n, r->list, r->item, out, r->room);
}

static uint64_t do_sheet(const struct request *r)
{
    return SIDE(sheet)(r->input, r->n + 1, out, r->room);
}

static const struct { const char *name; operation *call; } OPERATIONS[] = {
    { "none", do_none }, { "read", do_read }, { "write", do_write },
    { "view", do_view }, { "edit", do_edit }, { "sheet", do_sheet }
};

static void fail(const char *why)
{
    fprintf(stderr, "driver: %s\n", why);
    exit(2);
}

static operation *operation_of(const char *name)
{
    for (size_t k = 0; k < sizeof OPERATIONS / sizeof *OPERATIONS; k++) {
        if (!strcmp(OPERATIONS[k].name, name)) return OPERATIONS[k].call;
    }
    fail("no such operation");
    return NULL;
}

/* The request that a head begins, and its size. */
static size_t unpack(const struct head *h, struct request *r)
{
    size_t m = h->m == REMOVAL ? 0 : h->m;
    const uint8_t *input = (const uint8_t *)(h + 1), *octets = input + 1 + h->n;
    *r = (struct request){ .record = h->record, .input = input, .octets = h->m == REMOVAL ? NULL : octets,
                           .places = h->places, .room = h->room, .n = h->n, .m = m, .list = h->list, .item = h->item };
    return (sizeof *h + 1 + h->n + m + 3) / 4 * 4;
}

static size_t load(const char *path, struct request **requests)
{
    uint8_t *file = malloc(LARGEST);
    FILE *f = fopen(path, "rb");
    if (!file || !f) fail("no corpus");
    size_t size = fread(file, 1, LARGEST, f), count = 0;
    fclose(f);
    if (size == LARGEST) fail("corpus too large");
    *requests = malloc((size / sizeof(struct head) + 1) * sizeof **requests);
    if (!*requests) fail("no memory");
    for (size_t at = 0; at < size; count++) at += unpack((const struct head *)(file + at), *requests + count);
    return count;
}

static uint64_t mixed(uint64_t sum, uint64_t word)
{
    sum = (sum ^ word) * UINT64_C(0x9E3779B97F4A7C15);
    return sum ^ sum >> 29;
}

/* The outputs hold a mark before the call, so that what is not written shows too. */
static uint64_t checksum(operation *call, const struct request *r)
{
    uint64_t word;
    memset(kept, 0x5A, sizeof kept);
    memset(out, 0xA5, sizeof out);
    uint64_t sum = mixed(0, call(r));
    for (size_t i = 0; i < PLACES; i++) sum = mixed(sum, (uint32_t)kept[i]);
    for (size_t i = 0; i < sizeof out; i += sizeof word) {
        memcpy(&word, out + i, sizeof word);
        sum = mixed(sum, word);
    }
    return sum;
}

static uint64_t pass(operation *call, const struct request *requests, size_t count)
{
    uint64_t told = 0;
    for (size_t i = 0; i < count; i++) told += call(requests + i);
    return told;
}

static void timed(operation *call, const struct request *requests, size_t count, size_t repeat)
{
    struct timespec from, to;
    uint64_t first = pass(call, requests, count), told = 0;
    clock_gettime(CLOCK_PROCESS_CPUTIME_ID, &from);
    for (size_t k = 0; k < repeat; k++) told += pass(call, requests, count);
    clock_gettime(CLOCK_PROCESS_CPUTIME_ID, &to);
    if (told != first * repeat) fail("a pass told something else");
    long long ns = (to.tv_sec - from.tv_sec) * 1000000000LL + (to.tv_nsec - from.tv_nsec);
    printf("%016llx %lld %zu\n", (unsigned long long)first, ns, count);
}

int main(int argc, char **argv)
{
    struct request *requests;
    if (argc != 3 && argc != 5) fail("usage: driver OPERATION CORPUS [REPEAT COUNT]");
    operation *call = operation_of(argv[1]);
    size_t count = load(argv[2], &requests);
    if (argc == 5) {
        size_t some = strtoul(argv[4], NULL, 10);
        timed(call, requests, some && some < count ? some : count, strtoul(argv[3], NULL, 10));
        return 0;
    }
    for (size_t i = 0; i < count; i++) printf("%016llx\n", (unsigned long long)checksum(call, requests + i));
    return 0;
}
