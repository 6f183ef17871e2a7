/*
 * Answers the requests of tests/alike.py by the functions of include/refdesk.h: lines of docs/PROTOCOL.md on standard input,
 * each answered by a line as that page has it. It trusts its input; what it shows is that C is answered as Python is.
 */
#include "refdesk.h"

#include <stdio.h>
#include <stdlib.h>
#include <string.h>

enum { LINE = 1 << 17, WORDS = 100, ROOM = 300 };

static char line[LINE];
static char *words[WORDS];
static uint8_t octets[2][LINE / 2];
static uint8_t out[ROOM];

/* ---- words */

static void split(char *text)
{
    size_t n = 0;
    for (char *at = strtok(text, " \n"); at && n < WORDS; at = strtok(NULL, " \n"))
        words[n++] = at;
}

static long number(size_t word)
{
    return strtol(words[word], NULL, 10);
}

static uint8_t list(size_t word)
{
    return (uint8_t)strtol(words[word], NULL, 16);
}

/* The octets of a word of hex, into one of the two buffers; how many they are. */
static size_t hex(size_t word, size_t into)
{
    char pair[3] = {0};
    size_t n = words[word][0] == '-' ? 0 : strlen(words[word]) / 2;
    for (size_t i = 0; i < n; i++) {
        memcpy(pair, words[word] + 2 * i, 2);
        octets[into][i] = (uint8_t)strtol(pair, NULL, 16);
    }
    return n;
}

/* ---- answers */

static void put_octets(const uint8_t *from, size_t n)
{
    printf(n ? " " : " -");
    for (size_t i = 0; i < n; i++)
        printf("%02X", from[i]);
}

/* Whether it was refused; then that is the answer. */
static int refused(uint64_t word, int choosing)
{
    if (REF_NUMBER(word) == REF_ACCEPTED) {
        printf("ok");
        return 0;
    }
    printf("refused %u %zu", REF_NUMBER(word), REF_PLACE(word));
    if (choosing)
        printf(" %u", REF_WHICH(word));
    return 1;
}

static void field(uint64_t word)
{
    if (!refused(word, 0))
        put_octets(out, REF_LENGTH(word));
}

static void shown(uint64_t word, const uint8_t *from)
{
    printf(" %zu %zu", REF_START(word), REF_LENGTH(word));
    put_octets(from + REF_START(word), REF_LENGTH(word));
}

/* ---- requests */

static void do_read(void)
{
    int32_t record[REF_RECORD_PLACES];
    uint64_t word = ref_read((uint8_t)number(1), octets[0], hex(2, 0), record, REF_RECORD_PLACES);
    if (refused(word, 0))
        return;
    printf(" %zu", REF_LENGTH(word));
    for (size_t i = 0; i < REF_RECORD_PLACES; i++)
        printf(" %d", (int)record[i]);
}

static void do_write(void)
{
    int32_t record[REF_RECORD_PLACES];
    for (size_t i = 0; i < REF_RECORD_PLACES; i++)
        record[i] = (int32_t)number(2 + i);
    field(ref_write(record, REF_RECORD_PLACES, out, (size_t)number(1)));
}

/* The sheet of a category octet and a field, a space in front of each line; a field that is refused is refused as it is read. */
static void do_sheet(void)
{
    static uint8_t input[LINE / 2], text[REF_SHEET];
    int32_t record[REF_RECORD_PLACES];
    size_t n = hex(2, 0);
    input[0] = (uint8_t)number(1);
    memcpy(input + 1, octets[0], n);
    if (refused(ref_read(input[0], octets[0], n, record, REF_RECORD_PLACES), 0))
        return;
    size_t length = REF_LENGTH(ref_sheet(input, n + 1, text, REF_SHEET));
    printf(" ");
    for (size_t i = 0; i + 1 < length; i++)
        printf("%c", text[i] == '\n' ? ' ' : text[i]);
}

static void do_view(void)
{
    uint64_t word = ref_view((uint8_t)number(1), octets[0], hex(2, 0), (uint8_t)number(3));
    if (!refused(word, 0))
        shown(word, octets[0]);
}

static void do_choose(void)
{
    size_t base = hex(2, 0), correction = hex(3, 1);
    uint64_t word = ref_choose((uint8_t)number(1), octets[0], base, octets[1], correction, (uint8_t)number(4));
    if (refused(word, 1))
        return;
    printf(" %u", REF_WHICH(word));
    shown(word, octets[REF_WHICH(word) == REF_CORRECTION]);
}

static void do_remove(void)
{
    field(ref_remove((uint8_t)number(1), octets[0], hex(2, 0), list(3), (uint8_t)number(4), out, (size_t)number(5)));
}

static void do_replace(void)
{
    size_t n = hex(2, 0), m = hex(5, 1);
    field(ref_replace((uint8_t)number(1), octets[0], n, list(3), (uint8_t)number(4), octets[1], m, out, (size_t)number(6)));
}

static void do_copy(void)
{
    field(ref_copy((uint8_t)number(1), octets[0], hex(2, 0), list(3), out, (size_t)number(4)));
}

static void do_rebuild(void)
{
    uint64_t word = ref_rebuild(octets[0], hex(1, 0), out, (size_t)number(2));
    if (refused(word, 0))
        return;
    printf(" %u", REF_CAT(word));
    put_octets(out, REF_LENGTH(word));
}

static const struct { const char *name; void (*answer)(void); } REQUESTS[] = {
    {"read", do_read}, {"write", do_write}, {"sheet", do_sheet}, {"view", do_view}, {"choose", do_choose},
    {"remove", do_remove}, {"replace", do_replace}, {"copy", do_copy}, {"rebuild", do_rebuild}
};

int main(void)
{
    while (fgets(line, LINE, stdin)) {
        split(line);
        for (size_t k = 0; k < sizeof REQUESTS / sizeof *REQUESTS; k++)
            if (!strcmp(REQUESTS[k].name, words[0]))
                REQUESTS[k].answer();
        printf("\n");
    }
    return 0;
}
