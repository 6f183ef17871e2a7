/*
 * Calls each function of include/refdesk.h on accepted and refused inputs: the octets of 01's table, its edits, copies and
 * sheets by hand, and the order of the checks. What a call is lent lies between guards; after it every octet of both is compared.
 */
#include "refdesk.h"

#include <stdio.h>
#include <string.h>

#define WORD(number, which, place, length) \
    ((uint64_t)(number) << 48 | (uint64_t)(which) << 32 | (uint64_t)(place) << 16 | (uint64_t)(length))
#define OK(length) WORD(0, 0, 0, length)
#define REFUSED(number, place) WORD(number, 0, place, 0)
#define COUNT(rows) (sizeof(rows) / sizeof(rows)[0])

enum { GUARD = 8, MOST = 300 };

static unsigned checks, failures;

static void check(int right, const char *what, const char *row, unsigned long at)
{
    checks++;
    if (right)
        return;
    failures++;
    printf("wrong %s: %s (%lu)\n", what, row, at);
}

/* ---- memory that is lent */

struct octets {
    uint8_t all[GUARD + MOST + GUARD];
    size_t n;
};

struct numbers {
    int32_t all[GUARD + MOST + GUARD];
    size_t n;
};

static uint8_t digit(char c)
{
    return (uint8_t)(c <= '9' ? c - '0' : c - 'A' + 10);
}

/* The octets of a text of hex pairs. */
static struct octets hex(const char *text)
{
    struct octets o;
    memset(o.all, 0xEE, sizeof o.all);
    o.n = 0;
    while (*text != 0) {
        if (*text == ' ') {
            text++;
            continue;
        }
        o.all[GUARD + o.n++] = (uint8_t)(digit(text[0]) * 16 + digit(text[1]));
        text += 2;
    }
    return o;
}

static struct octets filled(size_t n)
{
    struct octets o;
    memset(o.all, 0xEE, sizeof o.all);
    o.n = n;
    return o;
}

static struct numbers unset(size_t n)
{
    struct numbers r;
    memset(r.all, 0xA5, sizeof r.all);
    r.n = n;
    return r;
}

static int same_octets(const struct octets *a, const struct octets *b)
{
    return a->n == b->n && memcmp(a->all, b->all, sizeof a->all) == 0;
}

static int same_numbers(const struct numbers *a, const struct numbers *b)
{
    return a->n == b->n && memcmp(a->all, b->all, sizeof a->all) == 0;
}

/* The output as it was, with these octets in its front. */
static struct octets fronted(struct octets out, const struct octets *result)
{
    memcpy(out.all + GUARD, result->all + GUARD, result->n);
    return out;
}

/* ---- a record: the parts of one item, and some numbers at their slots */

struct slot {
    unsigned at;
    int32_t number;
};

struct record {
    int32_t cat, items;
    unsigned item;
    int32_t parts;
    struct slot slots[3];
};

static struct numbers array_of(const struct record *r)
{
    struct numbers a = unset(REF_RECORD_PLACES);
    int32_t *place = a.all + GUARD;
    memset(place, 0, REF_RECORD_PLACES * sizeof *place);
    place[REF_RECORD_CAT] = r->cat;
    place[REF_RECORD_ITEMS] = r->items;
    place[REF_RECORD_PARTS + r->item - 1] = r->parts;
    for (size_t i = 0; i < COUNT(r->slots); i++)
        place[REF_RECORD_NUMBERS + r->slots[i].at] += r->slots[i].number;
    return a;
}

/* ---- reading, and writing what was read */

static const struct read_row {
    uint8_t cat;
    const char *field;
    uint64_t word;
    struct record kept;
} read_rows[] = {
    {48, "02 00", OK(2), {48, 0x00, 1, 0, {{0, 0}}}},
    {48, "02 80", REFUSED(5, 2), {0, 0, 1, 0, {{0, 0}}}},
    {48, "03 20 06", OK(3), {48, 0x20, 3, 1, {{REF_048_M4E, 3}}}},
    {48, "03 20 0F", REFUSED(6, 2), {0, 0, 1, 0, {{0, 0}}}},
    {48, "03 20 07", REFUSED(7, 2), {0, 0, 1, 0, {{0, 0}}}},
    {48, "04 40 01 00", OK(4), {48, 0x40, 2, 2, {{0, 0}}}},
    {48, "04 40 01 01", REFUSED(7, 3), {0, 0, 1, 0, {{0, 0}}}},
    {48, "04 40 01 80", REFUSED(5, 4), {0, 0, 1, 0, {{0, 0}}}},
    {48, "05 40 01 80 1F", OK(5), {48, 0x40, 2, 2, {{REF_048_HAS_M5N_FOM, 1}, {REF_048_M5N_FOM, 31}}}},
    {48, "05 40 01 80 20", REFUSED(6, 4), {0, 0, 1, 0, {{0, 0}}}},
    {48, "05 80 10 3F D8", OK(5), {48, 0x80, 1, 1, {{REF_048_HAS_MD5_GA, 1}, {REF_048_MD5_GA_GA, -40}}}},
    {48, "05 80 10 3F D7", REFUSED(8, 3), {0, 0, 1, 0, {{0, 0}}}},
    {48, "04 80 04 FF", OK(4), {48, 0x80, 1, 1, {{REF_048_HAS_MD5_TOS, 1}, {REF_048_MD5_TOS, -1}}}},
    {48, "09 80 20 40 00 00 80 00 00", OK(9),
     {48, 0x80, 1, 1, {{REF_048_HAS_MD5_POS, 1}, {REF_048_MD5_POS_LAT, 4194304}, {REF_048_MD5_POS_LON, -8388608}}}},
    {48, "09 80 20 40 00 01 80 00 00", REFUSED(8, 3), {0, 0, 1, 0, {{0, 0}}}},
    {48, "06 08 01 00 00 00", REFUSED(9, 5), {0, 0, 1, 0, {{0, 0}}}},
    {48, "03 01 00", REFUSED(4, 1), {0, 0, 1, 0, {{0, 0}}}},
    {21, "03 01 00", OK(3), {21, 0x01, 8, 1, {{0, 0}}}},
    {21, "04 80 0F FF", OK(4), {21, 0x80, 1, 0, {{REF_021_BPS, 4095}}}},
    {7, "06 80 3F FF 00 19", OK(6), {7, 0x80, 1, 0, {{REF_007_TA_TAMAX, -1}, {REF_007_TA_TAMIN, 25}}}},
    {48, "06 28 06 01 00 00", OK(6), {48, 0x28, 3, 1, {{REF_048_M4E, 3}, {REF_048_ERR, 65536}}}},
    {49, "02 00", REFUSED(1, 0), {0, 0, 1, 0, {{0, 0}}}},
    {0, "", REFUSED(1, 0), {0, 0, 1, 0, {{0, 0}}}},
    {48, "", REFUSED(2, 0), {0, 0, 1, 0, {{0, 0}}}},
    {48, "00", REFUSED(3, 0), {0, 0, 1, 0, {{0, 0}}}},
    {48, "01 FF", REFUSED(3, 0), {0, 0, 1, 0, {{0, 0}}}},
    {48, "05", REFUSED(2, 0), {0, 0, 1, 0, {{0, 0}}}},
    {48, "05 07", REFUSED(2, 0), {0, 0, 1, 0, {{0, 0}}}},
};

/* One call of ref_read: its word, and the array as it is to be afterwards. */
static void read_as(const struct read_row *row, const struct octets *field, size_t places, uint64_t word,
                    const struct numbers *after)
{
    struct octets lent = *field;
    struct numbers record = unset(places);
    uint64_t got = ref_read(row->cat, lent.all + GUARD, lent.n, record.all + GUARD, record.n);
    check(got == word, "word of ref_read", row->field, places);
    check(same_numbers(&record, after), "record of ref_read", row->field, places);
    check(same_octets(&lent, field), "field of ref_read", row->field, places);
}

/* One call of ref_write. */
static void write_as(const struct numbers *record, size_t room, uint64_t word, const struct octets *result,
                     const char *what)
{
    struct numbers lent = *record;
    struct octets out = filled(room);
    struct octets after = REF_NUMBER(word) == 0 ? fronted(out, result) : out;
    uint64_t got = ref_write(lent.all + GUARD, lent.n, out.all + GUARD, out.n);
    check(got == word, "word of ref_write", what, room);
    check(same_octets(&out, &after), "output of ref_write", what, room);
    check(same_numbers(&lent, record), "record of ref_write", what, room);
}

static void test_read(void)
{
    static const size_t others[] = {0, 1, 86, 88, 200};
    for (size_t i = 0; i < COUNT(read_rows); i++) {
        const struct read_row *row = read_rows + i;
        int accepted = REF_NUMBER(row->word) == REF_ACCEPTED;
        struct octets field = hex(row->field);
        struct numbers untouched = unset(REF_RECORD_PLACES);
        struct numbers record = accepted ? array_of(&row->kept) : untouched;
        read_as(row, &field, REF_RECORD_PLACES, row->word, &record);
        for (size_t k = 0; k < COUNT(others); k++) {
            untouched.n = others[k];
            read_as(row, &field, others[k], accepted ? REFUSED(11, 0) : row->word, &untouched);
        }
        if (!accepted)
            continue;
        struct octets longer = field;
        longer.n += 3;
        read_as(row, &longer, REF_RECORD_PLACES, row->word, &record);
        write_as(&record, REF_LONGEST, row->word, &field, row->field);
        write_as(&record, field.n, row->word, &field, row->field);
        write_as(&record, field.n - 1, REFUSED(11, 0), &field, row->field);
        write_as(&record, 0, REFUSED(11, 0), &field, row->field);
    }
}

/* ---- records that can't be written: one place of a record of M4E changed, and the room */

static const struct write_row {
    const char *what;
    unsigned place;
    int32_t number;
    size_t room;
    uint64_t word;
} write_rows[] = {
    {"as it is", REF_RECORD_CAT, 48, 3, OK(3)},
    {"no room", REF_RECORD_CAT, 48, 2, REFUSED(11, 0)},
    {"too wide", REF_RECORD_NUMBERS + REF_048_M4E, 4, 3, REFUSED(10, 0)},
    {"too wide, before the room", REF_RECORD_NUMBERS + REF_048_M4E, 4, 0, REFUSED(10, 0)},
    {"below 0", REF_RECORD_NUMBERS + REF_048_M4E, -1, 3, REFUSED(10, 0)},
    {"a number of an absent item", REF_RECORD_NUMBERS + REF_048_ERR, 1, 52, REFUSED(10, 0)},
    {"no parts", REF_RECORD_PARTS + 2, 0, 52, REFUSED(10, 0)},
    {"parts of an absent item", REF_RECORD_PARTS + 7, 1, 52, REFUSED(10, 0)},
    {"parts 257, whose low octet is right", REF_RECORD_PARTS + 2, 257, 52, REFUSED(10, 0)},
    {"parts -255, whose low octet is right", REF_RECORD_PARTS + 2, -255, 52, REFUSED(10, 0)},
    {"items with a spare bit", REF_RECORD_ITEMS, 0x21, 52, REFUSED(10, 0)},
    {"items 288, whose low octet is right", REF_RECORD_ITEMS, 0x120, 52, REFUSED(10, 0)},
    {"items below 0", REF_RECORD_ITEMS, 0x20 - 256, 52, REFUSED(10, 0)},
    {"category 49", REF_RECORD_CAT, 49, 52, REFUSED(1, 0)},
    {"category 49, before the room", REF_RECORD_CAT, 49, 0, REFUSED(1, 0)},
    {"category 304, whose low octet is right", REF_RECORD_CAT, 304, 52, REFUSED(1, 0)},
    {"category -208, whose low octet is right", REF_RECORD_CAT, -208, 52, REFUSED(1, 0)},
    {"category 7, which has another layout", REF_RECORD_CAT, 7, 52, REFUSED(10, 0)},
};

static void test_write(void)
{
    static const struct record m4e = {48, 0x20, 3, 1, {{REF_048_M4E, 3}}};
    static const size_t others[] = {0, 1, 86, 88};
    struct octets field = hex("03 20 06");
    for (size_t i = 0; i < COUNT(write_rows); i++) {
        const struct write_row *row = write_rows + i;
        struct numbers record = array_of(&m4e);
        record.all[GUARD + row->place] = row->number;
        write_as(&record, row->room, row->word, &field, row->what);
        for (size_t k = 0; k < COUNT(others); k++) {
            record.n = others[k];
            write_as(&record, row->room, REFUSED(10, 0), &field, row->what);
        }
    }
    struct numbers record = array_of(&m4e);
    record.all[GUARD + REF_RECORD_CAT] = 49;
    record.all[GUARD + REF_RECORD_ITEMS] = -1;
    write_as(&record, 52, REFUSED(1, 0), &field, "category 49 before the items");
}

/* ---- views and the choice */

static const struct view_row {
    uint8_t cat;
    const char *field;
    uint8_t item;
    uint64_t word;
} view_rows[] = {
    {48, "06 28 06 01 00 00", 3, WORD(0, 0, 2, 1)},
    {48, "06 28 06 01 00 00", 5, WORD(0, 0, 3, 3)},
    {48, "06 28 06 01 00 00 FF FF", 5, WORD(0, 0, 3, 3)},
    {48, "06 28 06 01 00 00", 1, REFUSED(15, 0)},
    {48, "06 28 06 01 00 00", 0, REFUSED(12, 0)},
    {48, "06 28 06 01 00 00", 6, REFUSED(12, 0)},
    {48, "06 28 06 01 00 00", 255, REFUSED(12, 0)},
    {21, "03 01 00", 8, WORD(0, 0, 2, 1)},
    {48, "03 20 0F", 3, REFUSED(6, 2)},
    {48, "06 08 01 00 00 00", 0, REFUSED(9, 5)},
    {48, "", 3, REFUSED(2, 0)},
    {49, "", 3, REFUSED(1, 0)},
};

static void test_view(void)
{
    for (size_t i = 0; i < COUNT(view_rows); i++) {
        const struct view_row *row = view_rows + i;
        struct octets field = hex(row->field), lent = field;
        uint64_t got = ref_view(row->cat, lent.all + GUARD, lent.n, row->item);
        check(got == row->word, "word of ref_view", row->field, row->item);
        check(same_octets(&lent, &field), "field of ref_view", row->field, row->item);
    }
}

static const struct choose_row {
    uint8_t cat;
    const char *base, *correction;
    uint8_t item;
    uint64_t word;
} choose_rows[] = {
    {48, "06 28 06 01 00 00", "03 20 04", 3, WORD(0, REF_CORRECTION, 2, 1)},
    {48, "06 28 06 01 00 00", "03 20 04", 5, WORD(0, REF_BASE, 3, 3)},
    {48, "03 20 06", "03 20 04", 5, WORD(15, REF_NEITHER, 0, 0)},
    {48, "03 20 06", "03 20 04", 9, WORD(12, REF_NEITHER, 0, 0)},
    {48, "03 20 06", "02 80", 9, WORD(5, REF_CORRECTION, 2, 0)},
    {48, "03 20 0F", "02 80", 9, WORD(6, REF_BASE, 2, 0)},
    {48, "03 20 0F", "03 20 04", 3, WORD(6, REF_BASE, 2, 0)},
    {48, "", "", 3, WORD(2, REF_BASE, 0, 0)},
    {48, "02 00", "", 3, WORD(2, REF_CORRECTION, 0, 0)},
    {0, "", "", 9, WORD(1, REF_NEITHER, 0, 0)},
};

static void test_choose(void)
{
    for (size_t i = 0; i < COUNT(choose_rows); i++) {
        const struct choose_row *row = choose_rows + i;
        struct octets base = hex(row->base), correction = hex(row->correction), b = base, c = correction;
        uint64_t got = ref_choose(row->cat, b.all + GUARD, b.n, c.all + GUARD, c.n, row->item);
        check(got == row->word, "word of ref_choose", row->base, row->item);
        check(same_octets(&b, &base), "base of ref_choose", row->base, row->item);
        check(same_octets(&c, &correction), "correction of ref_choose", row->correction, row->item);
    }
    struct octets field = hex("06 28 06 01 00 00");
    uint64_t got = ref_choose(48, field.all + GUARD, field.n, field.all + GUARD, field.n, 5);
    check(got == WORD(0, REF_CORRECTION, 3, 3), "word of ref_choose", "a field as its own correction", 5);
}

/* ---- edits */

static const struct edit_row {
    uint8_t cat;
    const char *field;
    uint8_t list, item;
    const char *new_octets; /* none for a removal */
    size_t room;
    uint64_t word;
    const char *result;
} edit_rows[] = {
    {48, "06 28 06 01 00 00", 0xFF, 5, "02 00 00", 52, OK(6), "06 28 06 02 00 00"},
    {48, "06 28 06 01 00 00", 0xFF, 3, 0, 52, OK(5), "05 08 01 00 00"},
    {48, "06 28 06 01 00 00", 0xFF, 4, "80 07", 52, OK(8), "08 38 06 80 07 01 00 00"},
    {48, "06 28 06 01 00 00", 0xFF, 4, "80 07", 8, OK(8), "08 38 06 80 07 01 00 00"},
    {48, "06 28 06 01 00 00", 0xFF, 4, "80 07", 7, REFUSED(11, 0), ""},
    {48, "06 28 06 01 00 00 99 99", 0x08, 5, "02 00 00", 6, OK(6), "06 28 06 02 00 00"},
    {48, "06 28 06 01 00 00", 0xFF, 1, 0, 52, OK(6), "06 28 06 01 00 00"},
    {48, "06 28 06 01 00 00", 0xFF, 1, 0, 5, REFUSED(11, 0), ""},
    {48, "06 28 06 01 00 00", 0x30, 5, "02 00 00", 52, REFUSED(13, 0), ""},
    {48, "06 28 06 01 00 00", 0x30, 5, "", 0, REFUSED(13, 0), ""},
    {48, "06 28 06 01 00 00", 0x30, 5, 0, 52, REFUSED(13, 0), ""},
    {48, "06 28 06 01 00 00", 0x00, 6, "", 0, REFUSED(12, 0), ""},
    {48, "06 28 06 01 00 00", 0xFF, 0, 0, 52, REFUSED(12, 0), ""},
    {48, "06 28 06 01 00 00", 0xFF, 6, 0, 52, REFUSED(12, 0), ""},
    {48, "06 28 06 01 00 00", 0xFF, 3, "0F", 0, REFUSED(14, 0), ""},
    {48, "06 28 06 01 00 00", 0xFF, 3, "06 00", 52, REFUSED(14, 0), ""},
    {48, "06 28 06 01 00 00", 0xFF, 3, "", 52, REFUSED(14, 0), ""},
    {48, "03 20 0F", 0x00, 0, "", 0, REFUSED(6, 2), ""},
    {48, "06 08 01 00 00 00", 0x00, 0, 0, 0, REFUSED(9, 5), ""},
    {49, "02 00", 0xFF, 3, "06", 52, REFUSED(1, 0), ""},
    {48, "", 0xFF, 3, 0, 52, REFUSED(2, 0), ""},
    {48, "01 28", 0xFF, 3, "06", 52, REFUSED(3, 0), ""},
    {48, "03 01 00", 0xFF, 3, "06", 52, REFUSED(4, 1), ""},
    {48, "02 80", 0xFF, 3, "06", 52, REFUSED(5, 2), ""},
    {48, "04 40 01 01", 0xFF, 3, "06", 52, REFUSED(7, 3), ""},
    {48, "05 80 10 3F D7", 0xFF, 3, 0, 52, REFUSED(8, 3), ""},
    {21, "02 00", 0x01, 8, "00", 52, OK(3), "03 01 00"},
};

/* One edit: a removal where there are no new octets. */
static void edit_as(const struct edit_row *row, const struct octets *new_octets)
{
    struct octets field = hex(row->field), lent = field, result = hex(row->result), out = filled(row->room);
    struct octets after = REF_NUMBER(row->word) == 0 ? fronted(out, &result) : out;
    uint64_t got;
    if (new_octets == 0) {
        got = ref_remove(row->cat, lent.all + GUARD, lent.n, row->list, row->item, out.all + GUARD, out.n);
    } else {
        struct octets given = *new_octets;
        got = ref_replace(row->cat, lent.all + GUARD, lent.n, row->list, row->item, given.all + GUARD, given.n,
                          out.all + GUARD, out.n);
        check(same_octets(&given, new_octets), "new octets of an edit", row->field, row->item);
    }
    check(got == row->word, "word of an edit", row->field, row->item);
    check(same_octets(&out, &after), "output of an edit", row->field, row->item);
    check(same_octets(&lent, &field), "field of an edit", row->field, row->item);
}

static void test_edit(void)
{
    for (size_t i = 0; i < COUNT(edit_rows); i++) {
        struct octets new_octets = hex(edit_rows[i].new_octets == 0 ? "" : edit_rows[i].new_octets);
        edit_as(edit_rows + i, edit_rows[i].new_octets == 0 ? 0 : &new_octets);
    }
    static const struct edit_row many = {48, "02 00", 0xFF, 3, "", 52, REFUSED(14, 0), ""};
    struct octets new_octets = filled(254);
    edit_as(&many, &new_octets);
}

/* ---- copies, by hand from 02, Ask 5 */

static const struct copy_row {
    uint8_t cat;
    const char *field;
    uint8_t withheld;
    size_t room;
    uint64_t word;
    const char *result;
} copy_rows[] = {
    {48, "06 28 06 01 00 00", 0x00, 6, OK(6), "06 28 06 01 00 00"},
    {48, "06 28 06 01 00 00", 0x20, 52, OK(5), "05 08 01 00 00"},
    {48, "06 28 06 01 00 00", 0x20, 5, OK(5), "05 08 01 00 00"},
    {48, "06 28 06 01 00 00", 0x20, 4, REFUSED(11, 0), ""},
    {48, "06 28 04 01 00 00 99", 0x20, 5, OK(5), "05 08 01 00 00"},
    {48, "05 08 01 00 00", 0x20, 5, OK(5), "05 08 01 00 00"},
    {48, "05 08 01 00 00", 0x20, 4, REFUSED(11, 0), ""},
    {48, "06 28 06 01 00 00", 0x08, 3, OK(3), "03 20 06"},
    {48, "06 28 06 01 00 00", 0xD7, 6, OK(6), "06 28 06 01 00 00"},
    {48, "06 28 06 01 00 00", 0x07, 6, OK(6), "06 28 06 01 00 00"},
    {48, "06 28 06 01 00 00", 0xFF, 2, OK(2), "02 00"},
    {48, "06 28 06 01 00 00", 0xFF, 1, REFUSED(11, 0), ""},
    {48, "02 00", 0xFF, 2, OK(2), "02 00"},
    {21, "05 81 0F FF 00", 0x01, 4, OK(4), "04 80 0F FF"},
    {21, "05 81 0F FF 00", 0x80, 3, OK(3), "03 01 00"},
    {7, "07 A0 3F FF 00 19 06", 0x20, 6, OK(6), "06 80 3F FF 00 19"},
    {49, "02 00", 0xFF, 52, REFUSED(1, 0), ""},
    {48, "", 0xFF, 52, REFUSED(2, 0), ""},
    {48, "01 28", 0xFF, 52, REFUSED(3, 0), ""},
    {48, "03 01 00", 0xFF, 0, REFUSED(4, 1), ""},
    {48, "02 80", 0x80, 52, REFUSED(5, 2), ""},
    {48, "03 20 0F", 0x20, 0, REFUSED(6, 2), ""},
    {48, "04 40 01 01", 0x40, 52, REFUSED(7, 3), ""},
    {48, "05 80 10 3F D7", 0x80, 52, REFUSED(8, 3), ""},
    {48, "06 08 01 00 00 00", 0x08, 0, REFUSED(9, 5), ""},
};

static void test_copy(void)
{
    for (size_t i = 0; i < COUNT(copy_rows); i++) {
        const struct copy_row *row = copy_rows + i;
        struct octets field = hex(row->field), lent = field, result = hex(row->result), out = filled(row->room);
        struct octets after = REF_NUMBER(row->word) == 0 ? fronted(out, &result) : out;
        uint64_t got = ref_copy(row->cat, lent.all + GUARD, lent.n, row->withheld, out.all + GUARD, out.n);
        check(got == row->word, "word of ref_copy", row->field, row->withheld);
        check(same_octets(&out, &after), "output of ref_copy", row->field, row->withheld);
        check(same_octets(&lent, &field), "field of ref_copy", row->field, row->withheld);
    }
}

/*
 * ---- ref_sheet: the texts are 01's worked sheet, and others by hand from its section 'The sheet'; and what ref_rebuild answers
 * to each: the category and LEN of the field, which comes back, or the line at which the sheet of a refusal is no sheet
 */

static const struct sheet_row {
    const char *input;
    const char *text;
    uint64_t rebuilt;
} sheet_rows[] = {
    {"30 06 28 06 01 00 00", "cat=48\nlen=6\nitems=M4E,ERR\nM4E=3\nERR=65536\nend=ok\n", WORD(0, 48, 0, 6)},
    {"30 02 00", "cat=48\nlen=2\nitems=\nend=ok\n", WORD(0, 48, 0, 2)},
    {"30 04 80 04 FF", "cat=48\nlen=4\nitems=MD5\nMD5.TOS=-1\nend=ok\n", WORD(0, 48, 0, 4)},
    {"30 05 80 10 3F D8", "cat=48\nlen=5\nitems=MD5\nMD5.GA.RES=0\nMD5.GA.GA=-40\nend=ok\n", WORD(0, 48, 0, 5)},
    {"30 09 80 20 40 00 00 80 00 00",
     "cat=48\nlen=9\nitems=MD5\nMD5.POS.LAT=4194304\nMD5.POS.LAT.udeg=90000000\nMD5.POS.LAT.left=0\n"
     "MD5.POS.LON=-8388608\nMD5.POS.LON.udeg=-180000000\nMD5.POS.LON.left=0\nend=ok\n", WORD(0, 48, 0, 9)},
    {"30 09 80 20 00 40 00 FF C0 00",
     "cat=48\nlen=9\nitems=MD5\nMD5.POS.LAT=16384\nMD5.POS.LAT.udeg=351563\nMD5.POS.LAT.left=-16384\n"
     "MD5.POS.LON=-16384\nMD5.POS.LON.udeg=-351563\nMD5.POS.LON.left=16384\nend=ok\n", WORD(0, 48, 0, 9)},
    {"07 09 40 20 00 3F FF 00 00 01",
     "cat=7\nlen=9\nitems=M5N\nM5N.chain=1\nM5N.POS.LAT=16383\nM5N.POS.LAT.udeg=351541\nM5N.POS.LAT.left=1387\n"
     "M5N.POS.LON=1\nM5N.POS.LON.udeg=21\nM5N.POS.LON.left=14997\nend=ok\n", WORD(0, 7, 0, 9)},
    {"30 04 40 01 00", "cat=48\nlen=4\nitems=M5N\nM5N.chain=2\nend=ok\n", WORD(0, 48, 0, 4)},
    {"15 04 80 00 00", "cat=21\nlen=4\nitems=BPS\nBPS=0\nBPS.tenths=8000\nBPS.sense=atmost\nend=ok\n", WORD(0, 21, 0, 4)},
    {"15 04 80 00 01", "cat=21\nlen=4\nitems=BPS\nBPS=1\nBPS.tenths=8001\nBPS.sense=equal\nend=ok\n", WORD(0, 21, 0, 4)},
    {"15 04 80 0F FE", "cat=21\nlen=4\nitems=BPS\nBPS=4094\nBPS.tenths=12094\nBPS.sense=equal\nend=ok\n", WORD(0, 21, 0, 4)},
    {"15 04 80 0F FF", "cat=21\nlen=4\nitems=BPS\nBPS=4095\nBPS.tenths=12095\nBPS.sense=atleast\nend=ok\n", WORD(0, 21, 0, 4)},
    {"30 03 20 0F", "cat=48\nrefused=6\nat=2\n", REFUSED(18, 2)},
    {"09 02 00", "cat=9\nrefused=1\nat=0\n", REFUSED(18, 1)},
    {"30", "cat=48\nrefused=2\nat=0\n", REFUSED(18, 2)},
    {"", "cat=none\nrefused=2\nat=0\n", REFUSED(18, 1)},
};

static struct octets letters(const char *text)
{
    struct octets o = filled(0);
    for (; text[o.n] != 0; o.n++)
        o.all[GUARD + o.n] = (uint8_t)text[o.n];
    return o;
}

static void sheet_as(const struct sheet_row *row, size_t room, uint64_t word, const struct octets *result)
{
    struct octets input = hex(row->input), lent = input, out = filled(room), after = fronted(out, result);
    uint64_t got = ref_sheet(lent.all + GUARD, lent.n, out.all + GUARD, out.n);
    check(got == word, "word of ref_sheet", row->input, room);
    check(same_octets(&out, &after), "output of ref_sheet", row->input, room);
    check(same_octets(&lent, &input), "input of ref_sheet", row->input, room);
}

static void test_sheet(void)
{
    struct octets nothing = filled(0);
    for (size_t i = 0; i < COUNT(sheet_rows); i++) {
        const struct sheet_row *row = sheet_rows + i;
        struct octets text = letters(row->text);
        sheet_as(row, text.n, WORD(0, 0, 0, text.n), &text);
        sheet_as(row, text.n + 9, WORD(0, 0, 0, text.n), &text);
        sheet_as(row, text.n - 1, REFUSED(11, 0), &nothing);
        sheet_as(row, 0, REFUSED(11, 0), &nothing);
    }
}

/* ---- ref_rebuild, by hand from 02, Ask 6: what is no sheet is refused at its line */

static const struct rebuild_row {
    const char *text;
    size_t room;
    uint64_t word;
} rebuild_rows[] = {
    {"", REF_LONGEST, REFUSED(18, 1)},
    {"\n", REF_LONGEST, REFUSED(18, 1)},
    {"cat=48", REF_LONGEST, REFUSED(18, 1)},
    {"cat=48\n", REF_LONGEST, REFUSED(18, 2)},
    {"cat=48\nlen=2\nitems=\nend=ok", REF_LONGEST, REFUSED(18, 4)},
    {"cat=48\nlen=2\nitems=\n", REF_LONGEST, REFUSED(18, 4)},
    {"cat=48\nlen=2\nitems=\nend=ok\n\n", REF_LONGEST, REFUSED(18, 5)},
    {"cat=048\nlen=2\nitems=\nend=ok\n", REF_LONGEST, REFUSED(18, 1)},
    {"cat=48\nlen=1\nitems=\nend=ko\n", REF_LONGEST, REFUSED(18, 2)},
    {"cat=48\nlen=256\nitems=\nend=ko\n", REF_LONGEST, REFUSED(18, 2)},
    {"cat=48\nlen=02\nitems=\nend=ko\n", REF_LONGEST, REFUSED(18, 2)},
    {"cat=48\nlen=255\nitems=\nend=ko\n", REF_LONGEST, REFUSED(18, 4)},
    {"cat=48\nlen=255\nitems=\nend=ok\n", 0, REFUSED(18, 2)},
    {"cat=48\nlen=2\nitems=\nend=ok\n", 1, REFUSED(11, 0)},
    {"cat=48\nlen=2\nitems=\nend=ko\n", 0, REFUSED(18, 4)},
    {"cat=48\nlen=6\nitems=ERR,M4E\nM4E=3\nERR=65536\nend=ok\n", REF_LONGEST, REFUSED(18, 3)},
    {"cat=48\nlen=6\nitems=M4E,ERR\nM4E=4\nERR=65536\nend=ok\n", REF_LONGEST, REFUSED(18, 4)},
    {"cat=48\nlen=6\nitems=M4E,ERR\nM4E=3\nERR=16777216\nend=ok\n", REF_LONGEST, REFUSED(18, 5)},
    {"cat=48\nlen=5\nitems=M5N\nM5N.chain=1\nM5N.FOM=31\nend=ok\n", REF_LONGEST, REFUSED(18, 5)},
    {"cat=48\nlen=5\nitems=MD5\nMD5.GA.GA=-40\nMD5.GA.RES=0\nend=ok\n", REF_LONGEST, REFUSED(18, 4)},
    {"cat=21\nlen=4\nitems=BPS\nBPS=1\nBPS.tenths=8000\nBPS.sense=equal\nend=ok\n", REF_LONGEST, REFUSED(18, 5)},
    {"cat=21\nlen=4\nitems=BPS\nBPS=1\nBPS.tenths=8001\nBPS.sense=atmost\nend=ok\n", REF_LONGEST, REFUSED(18, 6)},
};

static void rebuild_as(const char *row, size_t room, uint64_t word, const struct octets *field)
{
    struct octets text = letters(row), lent = text, out = filled(room);
    struct octets after = REF_NUMBER(word) == REF_ACCEPTED ? fronted(out, field) : out;
    uint64_t got = ref_rebuild(lent.all + GUARD, lent.n, out.all + GUARD, out.n);
    check(got == word, "word of ref_rebuild", row, room);
    check(same_octets(&out, &after), "output of ref_rebuild", row, room);
    check(same_octets(&lent, &text), "text of ref_rebuild", row, room);
}

static void test_rebuild(void)
{
    struct octets nothing = filled(0);
    for (size_t i = 0; i < COUNT(rebuild_rows); i++)
        rebuild_as(rebuild_rows[i].text, rebuild_rows[i].room, rebuild_rows[i].word, &nothing);
    for (size_t i = 0; i < COUNT(sheet_rows); i++) {
        const struct sheet_row *row = sheet_rows + i;
        int accepted = REF_NUMBER(row->rebuilt) == REF_ACCEPTED;
        struct octets field = accepted ? hex(row->input + 3) : nothing;
        check(REF_CAT(row->rebuilt) == (accepted ? hex(row->input).all[GUARD] : 0u), "category of ref_rebuild", row->text, field.n);
        rebuild_as(row->text, REF_LONGEST, row->rebuilt, &field);
        rebuild_as(row->text, field.n, row->rebuilt, &field);
        rebuild_as(row->text, field.n - (size_t)accepted, accepted ? REFUSED(11, 0) : row->rebuilt, &field);
        rebuild_as(row->text, 0, accepted ? REFUSED(11, 0) : row->rebuilt, &field);
    }
}

/* A sheet of six lines and line feeds behind it is refused at line 7, and with more than 32,768 octets in all at line 0. */
static void test_long_text(void)
{
    static uint8_t text[GUARD + REF_LONGEST_TEXT + 1 + GUARD], before[sizeof text];
    static const char sheet[] = "cat=48\nlen=6\nitems=M4E,ERR\nM4E=3\nERR=65536\nend=ok\n";
    struct octets out = filled(REF_LONGEST), after = out;
    memset(text, 0xEE, sizeof text);
    memset(text + GUARD, '\n', REF_LONGEST_TEXT + 1);
    memcpy(text + GUARD, sheet, sizeof sheet - 1);
    memcpy(before, text, sizeof text);
    uint64_t longest = ref_rebuild(text + GUARD, REF_LONGEST_TEXT, out.all + GUARD, out.n);
    uint64_t longer = ref_rebuild(text + GUARD, REF_LONGEST_TEXT + 1, out.all + GUARD, out.n);
    check(longest == REFUSED(18, 7), "word of ref_rebuild", "the longest text", REF_LONGEST_TEXT);
    check(REF_NUMBER(longest) == REF_TEXT && REF_LINE(longest) == 7 && REF_CAT(longest) == 0, "parts of the word", "the longest text", 7);
    check(longer == REFUSED(18, 0), "word of ref_rebuild", "a longer text", REF_LONGEST_TEXT + 1);
    check(same_octets(&out, &after), "output of ref_rebuild", "a long text", out.n);
    check(memcmp(text, before, sizeof text) == 0, "text of ref_rebuild", "a long text", sizeof text);
}

/* ---- names for C, by hand from 01: the numbers of items and refusals, and the octets of lists */

static void test_names(void)
{
    check(REF_ITEM_048_MD5 == 1 && REF_ITEM_048_ERR == 5 && REF_ITEM_021_BPS == 1 && REF_ITEM_021_MES == 8, "items", "048 and 021", 8);
    check(REF_ITEM_007_TA == 1 && REF_ITEM_007_M5N == 2 && REF_ITEM_007_ERR == 5, "items", "007", 5);
    check(REF_LISTED(REF_ITEM_048_MD5) == 0x80 && REF_LISTED(REF_ITEM_021_MES) == 0x01, "list of one item", "MD5 and MES", 1);
    check((REF_LISTED(REF_ITEM_048_M4E) | REF_LISTED(REF_ITEM_048_RPC)) == 0x30, "list of two items", "M4E and RPC", 2);
    check(strcmp(ref_words(REF_ACCEPTED), "accepted") == 0, "words", "accepted", REF_ACCEPTED);
    check(strcmp(ref_words(REF_SPARE), "spare bit set in a chain part or subfield") == 0, "words", "a spare bit", REF_SPARE);
    check(strcmp(ref_words(REF_LIST), "item is not on the slot's list") == 0, "words", "off the list", REF_LIST);
    check(strcmp(ref_words(REF_TEXT), "text that is no sheet of a field") == 0, "words", "no sheet", REF_TEXT);
    check(strcmp(ref_words(16), "no such refusal") == 0 && strcmp(ref_words(65535), "no such refusal") == 0, "words", "none", 16);
}

int main(void)
{
    test_names();
    test_read();
    test_write();
    test_view();
    test_choose();
    test_edit();
    test_copy();
    test_sheet();
    test_rebuild();
    test_long_text();
    printf("%u checks, %u wrong\n", checks, failures);
    return failures != 0;
}
