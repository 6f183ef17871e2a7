/* Document 01 in plain C, by hand and without a proof. A field is walked once, with every check in 01's order; the
   numbers are then taken from octets that are known to be right. Nothing here is taken from crates/; tests/reference.py
   is what bench/check.py holds it against. */
#include "plain.h"

#include <stdbool.h>
#include <string.h>

enum refusal {
    BAD_CATEGORY = 1, SHORT_SLICE, SMALL_LEN, SPARE_ITEM, CUT_OFF, SPARE_SET, TOO_MANY_PARTS, OUT_OF_RANGE, OCTETS_LEFT,
    BAD_RECORD, NO_ROOM, NO_SUCH_ITEM, NOT_LISTED, BAD_OCTETS, ABSENT
};

static uint64_t refused(unsigned number, size_t place)
{
    return (uint64_t)number << 48 | (uint64_t)place << 16;
}

static inline uint32_t be16(const uint8_t *p) { return (uint32_t)p[0] << 8 | p[1]; }
static inline uint32_t be24(const uint8_t *p) { return be16(p) << 8 | p[2]; }
static inline uint32_t be32(const uint8_t *p) { return be16(p) << 16 | be16(p + 2); }

/* Two's complement of so many bits. */
static inline int32_t signed_of(uint32_t v, unsigned bits)
{
    uint32_t sign = UINT32_C(1) << (bits - 1);
    return (int32_t)((v & (2 * sign - 1)) ^ sign) - (int32_t)sign;
}

/* ---- The walk: where each item stands, and whether all is as 01 says */

typedef const uint8_t *place;

/* A field's end, and the first refusal in it. A function of the walk gives the place behind what it passed, or NULL for
   a refusal. */
struct walk {
    place end, at;
    unsigned refusal;
};

static place refuse(struct walk *w, place p, unsigned number)
{
    w->at = p;
    w->refusal = number;
    return NULL;
}

/* A chain part or a subfield of so many octets with these spare bits: 5, 6. */
static inline place pass1(struct walk *w, place p, unsigned spare)
{
    if (w->end == p) return refuse(w, p, CUT_OFF);
    if (*p & spare) return refuse(w, p, SPARE_SET);
    return p + 1;
}

static inline place pass2(struct walk *w, place p, unsigned spare)
{
    if (w->end - p < 2) return refuse(w, p, CUT_OFF);
    if (be16(p) & spare) return refuse(w, p, SPARE_SET);
    return p + 2;
}

static inline place pass3(struct walk *w, place p)
{
    return w->end - p < 3 ? refuse(w, p, CUT_OFF) : p + 3;
}

static inline place pass4(struct walk *w, place p, uint32_t spare)
{
    if (w->end - p < 4) return refuse(w, p, CUT_OFF);
    if (be32(p) & spare) return refuse(w, p, SPARE_SET);
    return p + 4;
}

static inline place pass_position(struct walk *w, place p)
{
    if (w->end - p < 6) return refuse(w, p, CUT_OFF);
    int32_t lat = signed_of(be24(p), 24);
    if (lat < -4194304 || lat > 4194304) return refuse(w, p, OUT_OF_RANGE);
    return p + 6;
}

static inline place pass_altitude(struct walk *w, place p)
{
    if (w->end - p < 2) return refuse(w, p, CUT_OFF);
    if (be16(p) & 0x8000) return refuse(w, p, SPARE_SET);
    if (signed_of(be16(p), 14) < -40) return refuse(w, p, OUT_OF_RANGE);
    return p + 2;
}

/* The last part that a chain may have: 5, 6, 7. */
static inline place pass_last(struct walk *w, place p, unsigned spare)
{
    if (!pass1(w, p, spare)) return NULL;
    return *p & 1 ? refuse(w, p, TOO_MANY_PARTS) : p + 1;
}

static inline place pass_mode5(struct walk *w, place p, unsigned there, uint32_t pmn_spare)
{
    if (there & 0x80 && !(p = pass1(w, p, 0x01))) return NULL;
    if (there & 0x40 && !(p = pass4(w, p, pmn_spare))) return NULL;
    if (there & 0x20 && !(p = pass_position(w, p))) return NULL;
    if (there & 0x10 && !(p = pass_altitude(w, p))) return NULL;
    if (there & 0x08 && !(p = pass2(w, p, 0x1000))) return NULL;
    if (there & 0x04 && !(p = pass1(w, p, 0x00))) return NULL;
    if (there & 0x02 && !(p = pass1(w, p, 0xC0))) return NULL;
    return p;
}

static place pass_md5(struct walk *w, place p)
{
    place next = pass_last(w, p, 0);
    return next ? pass_mode5(w, next, *p, 0xC000C0C0) : NULL;
}

static place pass_m5n(struct walk *w, place p)
{
    place next = pass1(w, p, 0);
    if (!next) return NULL;
    unsigned there = *p, second = 0;
    if (there & 1) {
        p = next;
        if (!(next = pass_last(w, p, 0x7E))) return NULL;
        second = *p;
    }
    next = pass_mode5(w, next, there, 0xC000F000);
    return next && second & 0x80 ? pass1(w, next, 0xE0) : next;
}

static place pass_rpc(struct walk *w, place p)
{
    place next = pass_last(w, p, 0x0E);
    if (!next) return NULL;
    if (*p & 0x80 && !(next = pass1(w, next, 0))) return NULL;
    if (*p & 0x40 && !(next = pass2(w, next, 0))) return NULL;
    if (*p & 0x20 && !(next = pass2(w, next, 0))) return NULL;
    if (*p & 0x10 && !(next = pass2(w, next, 0))) return NULL;
    return next;
}

static place pass_sgv(struct walk *w, place p)
{
    place next = pass2(w, p, 0);
    return next && p[1] & 1 ? pass_last(w, next, 0) : next;
}

static place pass_sta(struct walk *w, place p)
{
    for (unsigned part = 1; part < 6; part++) {
        if (!(p = pass1(w, p, 0))) return NULL;
        if (!(p[-1] & 1)) return p;
    }
    return pass_last(w, p, 0x02);
}

static place pass_mes(struct walk *w, place p)
{
    place next = pass_last(w, p, 0x02);
    if (!next) return NULL;
    if (*p & 0x80 && !(next = pass1(w, next, 0))) return NULL;
    if (*p & 0x40 && !(next = pass4(w, next, 0xC000F800))) return NULL;
    if (*p & 0x20 && !(next = pass2(w, next, 0x5000))) return NULL;
    if (*p & 0x10 && !(next = pass1(w, next, 0xC0))) return NULL;
    if (*p & 0x08 && !(next = pass1(w, next, 0xE0))) return NULL;
    if (*p & 0x04 && !(next = pass2(w, next, 0x5000))) return NULL;
    return next;
}

/* The items of a field in order: item i of an accepted one stands from start[i - 1] to start[i]. */
static place pass_048(struct walk *w, place p, unsigned items, place start[9])
{
    start[0] = p;
    if (items & 0x80 && !(p = pass_md5(w, p))) return NULL;
    start[1] = p;
    if (items & 0x40 && !(p = pass_m5n(w, p))) return NULL;
    start[2] = p;
    if (items & 0x20 && !(p = pass_last(w, p, 0xF8))) return NULL;
    start[3] = p;
    if (items & 0x10 && !(p = pass_rpc(w, p))) return NULL;
    start[4] = p;
    if (items & 0x08 && !(p = pass3(w, p))) return NULL;
    return start[5] = p;
}

static place pass_007(struct walk *w, place p, unsigned items, place start[9])
{
    start[0] = p;
    if (items & 0x80 && !(p = pass4(w, p, 0xC000C000))) return NULL;
    start[1] = p;
    if (items & 0x40 && !(p = pass_m5n(w, p))) return NULL;
    start[2] = p;
    if (items & 0x20 && !(p = pass_last(w, p, 0xF8))) return NULL;
    start[3] = p;
    if (items & 0x10 && !(p = pass_rpc(w, p))) return NULL;
    start[4] = p;
    if (items & 0x08 && !(p = pass3(w, p))) return NULL;
    return start[5] = p;
}

static place pass_021(struct walk *w, place p, unsigned items, place start[9])
{
    start[0] = p;
    if (items & 0x80 && !(p = pass2(w, p, 0xF000))) return NULL;
    start[1] = p;
    if (items & 0x40 && !(p = pass2(w, p, 0xF000))) return NULL;
    start[2] = p;
    if (items & 0x20 && !(p = pass1(w, p, 0x03))) return NULL;
    start[3] = p;
    if (items & 0x10 && !(p = pass1(w, p, 0x00))) return NULL;
    start[4] = p;
    if (items & 0x08 && !(p = pass_sgv(w, p))) return NULL;
    start[5] = p;
    if (items & 0x04 && !(p = pass_sta(w, p))) return NULL;
    start[6] = p;
    if (items & 0x02 && !(p = pass2(w, p, 0))) return NULL;
    start[7] = p;
    if (items & 0x01 && !(p = pass_mes(w, p))) return NULL;
    return start[8] = p;
}

static unsigned items_of(uint8_t cat)
{
    return cat == 21 ? 8 : 5;
}

static inline place pass_items(struct walk *w, uint8_t cat, place p, unsigned items, place start[9])
{
    if (cat == 48) return pass_048(w, p, items, start);
    return cat == 21 ? pass_021(w, p, items, start) : pass_007(w, p, items, start);
}

/* 0, or the refusal of the field. */
static uint64_t walk_field(uint8_t cat, const uint8_t *field, size_t n, place start[9])
{
    if (cat != 48 && cat != 21 && cat != 7) return refused(BAD_CATEGORY, 0);
    if (n == 0) return refused(SHORT_SLICE, 0);
    if (field[0] < 2) return refused(SMALL_LEN, 0);
    if (n < field[0]) return refused(SHORT_SLICE, 0);
    if (field[1] & 0xFF >> items_of(cat)) return refused(SPARE_ITEM, 1);
    struct walk w = { field + field[0], NULL, 0 };
    place end = pass_items(&w, cat, field + 2, field[1], start);
    if (!end) return refused(w.refusal, (size_t)(w.at - field));
    return end == w.end ? 0 : refused(OCTETS_LEFT, (size_t)(end - field));
}

/* ---- The reader: numbers from octets that were walked */

/* Single bits from the high one down. */
static inline void take_flags(int32_t *n, unsigned octet, unsigned high, unsigned count)
{
    for (unsigned k = 0; k < count; k++) n[k] = octet >> (high - k) & 1;
}

static inline void take_em1(int32_t *n, const uint8_t *p)
{
    take_flags(n, p[0], 7, 3);
    n[3] = (int32_t)(be16(p) & 0xFFF);
}

/* From POS on, MD5 and M5N have their numbers at the same slots. */
static const uint8_t *take_mode5(int32_t *n, const uint8_t *p, unsigned there)
{
    if (there & 0x20) {
        n[18] = signed_of(be24(p), 24);
        n[19] = signed_of(be24(p + 3), 24);
        p += 6;
    }
    if (there & 0x10) {
        n[20] = p[0] >> 6 & 1;
        n[21] = signed_of(be16(p), 14);
        p += 2;
    }
    if (there & 0x08) {
        take_em1(n + 22, p);
        p += 2;
    }
    if (there & 0x04) n[26] = signed_of(*p++, 8);
    if (there & 0x02) take_flags(n + 27, *p++, 5, 6);
    return p;
}

static int32_t take_md5(int32_t *n, const uint8_t *p)
{
    unsigned there = *p++;
    take_flags(n, there, 7, 7);
    if (there & 0x80) take_flags(n + 7, *p++, 7, 7);
    if (there & 0x40) {
        n[14] = be16(p) & 0x3FFF;
        n[15] = p[2] >> 5 & 1;
        n[16] = p[2] & 0x1F;
        n[17] = p[3] & 0x3F;
        p += 4;
    }
    take_mode5(n, p, there);
    return 1;
}

static int32_t take_m5n(int32_t *n, const uint8_t *p)
{
    unsigned there = *p++;
    int32_t parts = 1;
    take_flags(n, there, 7, 7);
    if (there & 1) {
        n[7] = *p++ >> 7;
        parts = 2;
    }
    if (there & 0x80) take_flags(n + 8, *p++, 7, 7);
    if (there & 0x40) {
        n[15] = be16(p) & 0x3FFF;
        n[16] = p[2] >> 3 & 1;
        n[17] = be16(p + 2) & 0x7FF;
        p += 4;
    }
    p = take_mode5(n, p, there);
    if (n[7]) n[33] = *p;
    return parts;
}

static int32_t take_m4e(int32_t *n, const uint8_t *p)
{
    n[0] = p[0] >> 1;
    return 1;
}

static int32_t take_rpc(int32_t *n, const uint8_t *p)
{
    unsigned there = *p++;
    take_flags(n, there, 7, 4);
    if (there & 0x80) n[4] = *p++;
    for (unsigned k = 1; k < 4; k++) {
        if (there & 0x80 >> k) {
            n[4 + k] = (int32_t)be16(p);
            p += 2;
        }
    }
    return 1;
}

static int32_t take_sgv(int32_t *n, const uint8_t *p)
{
    take_flags(n, p[0], 7, 4);
    n[4] = be16(p) >> 1 & 0x7FF;
    if (!(p[1] & 1)) return 1;
    n[5] = p[2] >> 1;
    return 2;
}

static int32_t take_sta(int32_t *n, const uint8_t *p)
{
    take_flags(n, p[0], 7, 3);
    n[3] = p[0] >> 3 & 3;
    n[4] = p[0] >> 2 & 1;
    n[5] = p[0] >> 1 & 1;
    if (!(p[0] & 1)) return 1;
    n[6] = p[1] >> 7;
    n[7] = p[1] >> 4 & 7;
    n[8] = p[1] >> 3 & 1;
    n[9] = p[1] >> 1 & 3;
    if (!(p[1] & 1)) return 2;
    n[10] = p[2] >> 7;
    n[11] = p[2] >> 5 & 3;
    take_flags(n + 12, p[2], 4, 4);
    if (!(p[2] & 1)) return 3;
    for (unsigned k = 3; k < 5; k++) {
        int32_t *part = n + 16 + 4 * (k - 3);
        part[0] = p[k] >> 7;
        part[1] = p[k] >> 5 & 3;
        part[2] = p[k] >> 4 & 1;
        part[3] = p[k] >> 1 & 7;
        if (!(p[k] & 1)) return (int32_t)k + 1;
    }
    n[24] = p[5] >> 7;
    n[25] = p[5] >> 2 & 0x1F;
    return 6;
}

/* V, L and a code of 12 bits. */
static inline void take_code(int32_t *n, const uint8_t *p)
{
    n[0] = p[0] >> 7;
    n[1] = p[0] >> 5 & 1;
    n[2] = be16(p) & 0xFFF;
}

static int32_t take_mes(int32_t *n, const uint8_t *p)
{
    unsigned there = *p++;
    take_flags(n, there, 7, 6);
    if (there & 0x80) take_flags(n + 6, *p++, 7, 8);
    if (there & 0x40) {
        n[14] = be16(p) & 0x3FFF;
        n[15] = be16(p + 2) & 0x7FF;
        p += 4;
    }
    if (there & 0x20) {
        take_code(n + 16, p);
        p += 2;
    }
    if (there & 0x10) take_flags(n + 19, *p++, 5, 6);
    if (there & 0x08) n[25] = *p++;
    if (there & 0x04) take_code(n + 26, p);
    return 1;
}

static void take_048(int32_t *record, unsigned items, place const start[9])
{
    int32_t *parts = record + 2, *n = record + 10;
    if (items & 0x80) parts[0] = take_md5(n, start[0]);
    if (items & 0x40) parts[1] = take_m5n(n + 33, start[1]);
    if (items & 0x20) parts[2] = take_m4e(n + 67, start[2]);
    if (items & 0x10) parts[3] = take_rpc(n + 68, start[3]);
    if (items & 0x08) n[76] = (int32_t)be24(start[4]);
}

static void take_007(int32_t *record, unsigned items, place const start[9])
{
    int32_t *parts = record + 2, *n = record + 10;
    if (items & 0x80) {
        n[0] = signed_of(be16(start[0]), 14);
        n[1] = signed_of(be16(start[0] + 2), 14);
    }
    if (items & 0x40) parts[1] = take_m5n(n + 2, start[1]);
    if (items & 0x20) parts[2] = take_m4e(n + 36, start[2]);
    if (items & 0x10) parts[3] = take_rpc(n + 37, start[3]);
    if (items & 0x08) n[45] = (int32_t)be24(start[4]);
}

static void take_021(int32_t *record, unsigned items, place const start[9])
{
    int32_t *parts = record + 2, *n = record + 10;
    if (items & 0x80) n[0] = (int32_t)be16(start[0]);
    if (items & 0x40) {
        n[1] = start[1][0] >> 3 & 1;
        n[2] = start[1][0] >> 2 & 1;
        n[3] = be16(start[1]) & 0x3FF;
    }
    if (items & 0x20) take_flags(n + 4, start[2][0], 7, 6);
    if (items & 0x10) {
        n[10] = start[3][0] >> 5;
        n[11] = start[3][0] & 0x1F;
    }
    if (items & 0x08) parts[4] = take_sgv(n + 12, start[4]);
    if (items & 0x04) parts[5] = take_sta(n + 18, start[5]);
    if (items & 0x02) n[44] = (int32_t)be16(start[6]);
    if (items & 0x01) parts[7] = take_mes(n + 45, start[7]);
}

/* The record of a field that was walked. */
static void take_record(uint8_t cat, const uint8_t *field, place const start[9], int32_t *record)
{
    memset(record, 0, PLAIN_RECORD * sizeof *record);
    record[0] = cat;
    record[1] = field[1];
    if (cat == 48) take_048(record, field[1], start);
    else if (cat == 21) take_021(record, field[1], start);
    else take_007(record, field[1], start);
}

uint64_t plain_read(uint8_t cat, const uint8_t *field, size_t n, int32_t *record, size_t length)
{
    place start[9];
    uint64_t answer = walk_field(cat, field, n, start);
    if (answer) return answer;
    if (length != PLAIN_RECORD) return refused(NO_ROOM, 0);
    take_record(cat, field, start, record);
    return field[0];
}

/* ---- The writer: octets from numbers */

enum { LONGEST = 52 };

/* Where the next octet goes, and what was found that no field holds: bits above a number's own, or a number where
   nothing is. It is 0 as long as all is right, and tried once at the end; no record makes a longer field than LONGEST.
   An item takes and gives it by value, so that it stays in registers. */
struct laying {
    uint8_t *next;
    uint32_t wrong;
};

/* A number of so many bits, from 0 up. */
static inline uint32_t bits(struct laying *l, int32_t z, unsigned width)
{
    l->wrong |= (uint32_t)z >> width;
    return (uint32_t)z;
}

/* A number of so many bits, two's complement, with the limits that it has. */
static inline uint32_t limited(struct laying *l, int32_t z, unsigned width, int32_t low, int32_t high)
{
    l->wrong |= z < low || z > high;
    return (uint32_t)z & ((UINT32_C(1) << width) - 1);
}

static inline uint32_t signed_bits(struct laying *l, int32_t z, unsigned width)
{
    int32_t half = INT32_C(1) << (width - 1);
    return limited(l, z, width, -half, half - 1);
}

/* Single bits from the high one down. */
static inline uint32_t flags(struct laying *l, const int32_t *n, unsigned high, unsigned count)
{
    uint32_t all = 0, octet = 0;
    for (unsigned k = 0; k < count; k++) {
        all |= (uint32_t)n[k];
        octet |= (uint32_t)n[k] << (high - k);
    }
    l->wrong |= all >> 1;
    return octet;
}

/* Numbers of what is not there. */
static inline void zeros(struct laying *l, const int32_t *n, unsigned count)
{
    for (unsigned k = 0; k < count; k++) l->wrong |= (uint32_t)n[k];
}

/* So many octets, the high one first. */
static inline void lay1(struct laying *l, uint32_t v)
{
    *l->next++ = (uint8_t)v;
}

static inline void lay2(struct laying *l, uint32_t v)
{
    lay1(l, v >> 8);
    lay1(l, v);
}

static inline void lay3(struct laying *l, uint32_t v)
{
    lay1(l, v >> 16);
    lay2(l, v);
}

static inline void lay4(struct laying *l, uint32_t v)
{
    lay2(l, v >> 16);
    lay2(l, v);
}

static inline void lay_sum(struct laying *l, const int32_t *n, bool there)
{
    if (there) lay1(l, flags(l, n, 7, 7));
    else zeros(l, n, 7);
}

static inline void lay_xp(struct laying *l, const int32_t *n, bool there)
{
    if (there) lay1(l, flags(l, n, 5, 6));
    else zeros(l, n, 6);
}

static inline void lay_fom(struct laying *l, const int32_t *n, bool there)
{
    if (there) lay1(l, bits(l, n[0], 5));
    else zeros(l, n, 1);
}

/* From POS on, MD5 and M5N have their numbers at the same slots. */
static struct laying lay_mode5(struct laying l, const int32_t *n, uint32_t there)
{
    if (there & 0x20) {
        lay3(&l, limited(&l, n[18], 24, -4194304, 4194304));
        lay3(&l, signed_bits(&l, n[19], 24));
    } else zeros(&l, n + 18, 2);
    if (there & 0x10) lay2(&l, bits(&l, n[20], 1) << 14 | limited(&l, n[21], 14, -40, 8191));
    else zeros(&l, n + 20, 2);
    if (there & 0x08) lay2(&l, flags(&l, n + 22, 15, 3) | bits(&l, n[25], 12));
    else zeros(&l, n + 22, 4);
    if (there & 0x04) lay1(&l, signed_bits(&l, n[26], 8));
    else zeros(&l, n + 26, 1);
    lay_xp(&l, n + 27, there & 0x02);
    return l;
}

static struct laying lay_md5(struct laying l, const int32_t *n, int32_t parts)
{
    uint32_t there = flags(&l, n, 7, 7);
    l.wrong |= parts != 1;
    lay1(&l, there);
    lay_sum(&l, n + 7, there & 0x80);
    if (there & 0x40) {
        lay4(&l, bits(&l, n[14], 14) << 16 | bits(&l, n[15], 1) << 13 | bits(&l, n[16], 5) << 8 | bits(&l, n[17], 6));
    } else zeros(&l, n + 14, 4);
    return lay_mode5(l, n, there);
}

static struct laying lay_m5n(struct laying l, const int32_t *n, int32_t parts)
{
    uint32_t there = flags(&l, n, 7, 7), second = bits(&l, n[7], 1);
    bool more = parts == 2;
    l.wrong |= more ? 0 : second | (parts != 1);
    lay1(&l, there | more);
    if (more) lay1(&l, second << 7);
    lay_sum(&l, n + 8, there & 0x80);
    if (there & 0x40) lay4(&l, bits(&l, n[15], 14) << 16 | bits(&l, n[16], 1) << 11 | bits(&l, n[17], 11));
    else zeros(&l, n + 15, 3);
    l = lay_mode5(l, n, there);
    lay_fom(&l, n + 33, second);
    return l;
}

static struct laying lay_m4e(struct laying l, const int32_t *n, int32_t parts)
{
    l.wrong |= parts != 1;
    lay1(&l, bits(&l, n[0], 2) << 1);
    return l;
}

static struct laying lay_rpc(struct laying l, const int32_t *n, int32_t parts)
{
    uint32_t there = flags(&l, n, 7, 4);
    l.wrong |= parts != 1;
    lay1(&l, there);
    if (there & 0x80) lay1(&l, bits(&l, n[4], 8));
    else zeros(&l, n + 4, 1);
    for (unsigned k = 1; k < 4; k++) {
        if (there & 0x80 >> k) lay2(&l, bits(&l, n[4 + k], 16));
        else zeros(&l, n + 4 + k, 1);
    }
    return l;
}

static struct laying lay_sgv(struct laying l, const int32_t *n, int32_t parts)
{
    bool more = parts == 2;
    l.wrong |= parts != 1 && !more;
    lay2(&l, flags(&l, n, 15, 4) | bits(&l, n[4], 11) << 1 | more);
    if (more) lay1(&l, bits(&l, n[5], 7) << 1);
    else zeros(&l, n + 5, 1);
    return l;
}

/* Parts 4 and 5 have one layout. */
static inline void lay_sta_part(struct laying *l, const int32_t *n, bool there, bool more)
{
    if (!there) zeros(l, n, 4);
    else lay1(l, bits(l, n[0], 1) << 7 | bits(l, n[1], 2) << 5 | bits(l, n[2], 1) << 4 | bits(l, n[3], 3) << 1 | more);
}

static struct laying lay_sta(struct laying l, const int32_t *n, int32_t parts)
{
    l.wrong |= parts < 1 || parts > 6;
    lay1(&l, flags(&l, n, 7, 3) | bits(&l, n[3], 2) << 3 | flags(&l, n + 4, 2, 2) | (parts > 1));
    if (parts > 1) {
        uint32_t high = bits(&l, n[6], 1) << 7 | bits(&l, n[7], 3) << 4;
        lay1(&l, high | bits(&l, n[8], 1) << 3 | bits(&l, n[9], 2) << 1 | (parts > 2));
    } else zeros(&l, n + 6, 4);
    if (parts > 2) {
        lay1(&l, bits(&l, n[10], 1) << 7 | bits(&l, n[11], 2) << 5 | flags(&l, n + 12, 4, 4) | (parts > 3));
    } else zeros(&l, n + 10, 6);
    lay_sta_part(&l, n + 16, parts > 3, parts > 4);
    lay_sta_part(&l, n + 20, parts > 4, parts > 5);
    if (parts > 5) lay1(&l, bits(&l, n[24], 1) << 7 | bits(&l, n[25], 5) << 2);
    else zeros(&l, n + 24, 2);
    return l;
}

/* V, L and a code of 12 bits. */
static inline void lay_code(struct laying *l, const int32_t *n, bool there)
{
    if (there) lay2(l, bits(l, n[0], 1) << 15 | bits(l, n[1], 1) << 13 | bits(l, n[2], 12));
    else zeros(l, n, 3);
}

static struct laying lay_mes(struct laying l, const int32_t *n, int32_t parts)
{
    uint32_t there = flags(&l, n, 7, 6);
    l.wrong |= parts != 1;
    lay1(&l, there);
    if (there & 0x80) lay1(&l, flags(&l, n + 6, 7, 8));
    else zeros(&l, n + 6, 8);
    if (there & 0x40) lay4(&l, bits(&l, n[14], 14) << 16 | bits(&l, n[15], 11));
    else zeros(&l, n + 14, 2);
    lay_code(&l, n + 16, there & 0x20);
    lay_xp(&l, n + 19, there & 0x10);
    lay_fom(&l, n + 25, there & 0x08);
    lay_code(&l, n + 26, there & 0x04);
    return l;
}

/* An item that is not there has no parts either. */
static inline struct laying no_item(struct laying l, const int32_t *n, unsigned count, int32_t parts)
{
    l.wrong |= (uint32_t)parts;
    zeros(&l, n, count);
    return l;
}

/* M5N, M4E, RPC and ERR, from the slot of the first: category 48 and 7 end alike. */
static inline struct laying lay_last_four(struct laying l, uint32_t items, const int32_t *parts, const int32_t *n)
{
    l.wrong |= items & ~UINT32_C(0xF8);
    l = items & 0x40 ? lay_m5n(l, n, parts[1]) : no_item(l, n, 34, parts[1]);
    l = items & 0x20 ? lay_m4e(l, n + 34, parts[2]) : no_item(l, n + 34, 1, parts[2]);
    l = items & 0x10 ? lay_rpc(l, n + 35, parts[3]) : no_item(l, n + 35, 8, parts[3]);
    if (items & 0x08) lay3(&l, bits(&l, n[43], 24));
    else zeros(&l, n + 43, 1);
    zeros(&l, parts + 4, 4);
    return l;
}

static struct laying lay_048(struct laying l, uint32_t items, const int32_t *parts, const int32_t *n)
{
    l = items & 0x80 ? lay_md5(l, n, parts[0]) : no_item(l, n, 33, parts[0]);
    return lay_last_four(l, items, parts, n + 33);
}

static struct laying lay_007(struct laying l, uint32_t items, const int32_t *parts, const int32_t *n)
{
    zeros(&l, parts, 1);
    if (items & 0x80) lay4(&l, signed_bits(&l, n[0], 14) << 16 | signed_bits(&l, n[1], 14));
    else zeros(&l, n, 2);
    zeros(&l, n + 46, 31);
    return lay_last_four(l, items, parts, n + 2);
}

static struct laying lay_021(struct laying l, uint32_t items, const int32_t *parts, const int32_t *n)
{
    l.wrong |= items & ~UINT32_C(0xFF);
    zeros(&l, parts, 4);
    if (items & 0x80) lay2(&l, bits(&l, n[0], 12));
    else zeros(&l, n, 1);
    if (items & 0x40) lay2(&l, flags(&l, n + 1, 11, 2) | bits(&l, n[3], 10));
    else zeros(&l, n + 1, 3);
    if (items & 0x20) lay1(&l, flags(&l, n + 4, 7, 6));
    else zeros(&l, n + 4, 6);
    if (items & 0x10) lay1(&l, bits(&l, n[10], 3) << 5 | bits(&l, n[11], 5));
    else zeros(&l, n + 10, 2);
    l = items & 0x08 ? lay_sgv(l, n + 12, parts[4]) : no_item(l, n + 12, 6, parts[4]);
    l = items & 0x04 ? lay_sta(l, n + 18, parts[5]) : no_item(l, n + 18, 26, parts[5]);
    if (items & 0x02) lay2(&l, bits(&l, n[44], 16));
    else zeros(&l, n + 44, 1);
    zeros(&l, parts + 6, 1);
    l = items & 0x01 ? lay_mes(l, n + 45, parts[7]) : no_item(l, n + 45, 29, parts[7]);
    zeros(&l, n + 74, 3);
    return l;
}

uint64_t plain_write(const int32_t *record, size_t length, uint8_t *out, size_t room)
{
    uint8_t field[LONGEST];
    struct laying l = { field + 2, 0 };
    if (length != PLAIN_RECORD) return refused(BAD_RECORD, 0);
    uint32_t items = (uint32_t)record[1];
    const int32_t *parts = record + 2, *n = record + 10;
    switch (record[0]) {
    case 48: l = lay_048(l, items, parts, n); break;
    case 21: l = lay_021(l, items, parts, n); break;
    case 7: l = lay_007(l, items, parts, n); break;
    default: return refused(BAD_CATEGORY, 0);
    }
    if (l.wrong) return refused(BAD_RECORD, 0);
    size_t size = (size_t)(l.next - field);
    if (size > room) return refused(NO_ROOM, 0);
    field[0] = (uint8_t)size;
    field[1] = (uint8_t)items;
    memcpy(out, field, size);
    return size;
}

/* ---- The view */

uint64_t plain_view(uint8_t cat, const uint8_t *field, size_t n, uint8_t item)
{
    place start[9];
    uint64_t answer = walk_field(cat, field, n, start);
    if (answer) return answer;
    if (item < 1 || item > items_of(cat)) return refused(NO_SUCH_ITEM, 0);
    if (!(field[1] & 0x100 >> item)) return refused(ABSENT, 0);
    place from = start[item - 1];
    return (uint64_t)(from - field) << 16 | (uint64_t)(start[item] - from);
}

/* ---- The editor */

/* The field with its octets from a place to another exchanged for m others, into the front of out. */
static uint64_t splice(const uint8_t *field, unsigned items, place from, place to, const uint8_t *octets, size_t m,
                       uint8_t *out, size_t room)
{
    size_t front = (size_t)(from - field), rest = (size_t)(field + field[0] - to), n = front + m + rest;
    if (n > room) return refused(NO_ROOM, 0);
    out[0] = (uint8_t)n;
    out[1] = (uint8_t)items;
    memcpy(out + 2, field + 2, front - 2);
    if (m) memcpy(out + front, octets, m);
    memcpy(out + front + m, to, rest);
    return n;
}

/* The field's own refusals, then 12 and 13. */
static uint64_t allowed(uint8_t cat, const uint8_t *field, size_t n, uint8_t list, uint8_t item, place start[9])
{
    uint64_t answer = walk_field(cat, field, n, start);
    if (answer) return answer;
    if (item < 1 || item > items_of(cat)) return refused(NO_SUCH_ITEM, 0);
    return list & 0x100 >> item ? 0 : refused(NOT_LISTED, 0);
}

uint64_t plain_remove(uint8_t cat, const uint8_t *field, size_t n, uint8_t list, uint8_t item, uint8_t *out,
                      size_t room)
{
    place start[9];
    uint64_t answer = allowed(cat, field, n, list, item, start);
    if (answer) return answer;
    return splice(field, field[1] & ~(0x100u >> item), start[item - 1], start[item], NULL, 0, out, room);
}

/* Whether the octets are exactly one such item. */
static bool is_item(uint8_t cat, unsigned bit, const uint8_t *octets, size_t m)
{
    place start[9];
    struct walk w = { octets + m, NULL, 0 };
    return m > 0 && m <= 253 && pass_items(&w, cat, octets, bit, start) == w.end;
}

uint64_t plain_replace(uint8_t cat, const uint8_t *field, size_t n, uint8_t list, uint8_t item, const uint8_t *octets,
                       size_t m, uint8_t *out, size_t room)
{
    place start[9];
    uint64_t answer = allowed(cat, field, n, list, item, start);
    if (answer) return answer;
    unsigned bit = 0x100u >> item;
    if (!is_item(cat, bit, octets, m)) return refused(BAD_OCTETS, 0);
    return splice(field, field[1] | bit, start[item - 1], start[item], octets, m, out, room);
}

/* ---- The sheet */

static char *decimal(char *t, int32_t z)
{
    char digits[10];
    unsigned k = 0;
    uint32_t u = z < 0 ? -(uint32_t)z : (uint32_t)z;
    if (z < 0) *t++ = '-';
    do digits[k++] = (char)('0' + u % 10);
    while (u /= 10);
    while (k) *t++ = digits[--k];
    return t;
}

static inline char *put(char *t, const char *s, size_t n)
{
    memcpy(t, s, n);
    return t + n;
}

static inline char *line(char *t, const char *key, size_t n, int32_t z)
{
    t = decimal(put(t, key, n), z);
    *t++ = '\n';
    return t;
}

/* key and = and a number; and the same behind the three letters of an item */
#define LINE(key, z) (t = line(t, key "=", sizeof key, z))
#define ITEM_LINE(key, z) (t = put(t, item, 3), LINE(key, z))

/* Millionths of a degree, nearest, halves away from zero; and what they leave of the exact angle, in parts of 32,768. */
struct angle {
    int32_t udeg, left;
};

static struct angle angle(int32_t n)
{
    int64_t p = INT64_C(703125) * n, q = (p < 0 ? p - 16384 : p + 16384) / 32768;
    return (struct angle){(int32_t)q, (int32_t)(p - q * 32768)};
}

static char *show_xp(char *t, const char *item, const int32_t *n)
{
    ITEM_LINE(".XP.XP", n[0]);
    ITEM_LINE(".XP.X5", n[1]);
    ITEM_LINE(".XP.XC", n[2]);
    ITEM_LINE(".XP.X3", n[3]);
    ITEM_LINE(".XP.X2", n[4]);
    ITEM_LINE(".XP.X1", n[5]);
    return t;
}

static char *show_sum(char *t, const char *item, const int32_t *n)
{
    ITEM_LINE(".SUM.M5", n[0]);
    ITEM_LINE(".SUM.ID", n[1]);
    ITEM_LINE(".SUM.DA", n[2]);
    ITEM_LINE(".SUM.M1", n[3]);
    ITEM_LINE(".SUM.M2", n[4]);
    ITEM_LINE(".SUM.M3", n[5]);
    ITEM_LINE(".SUM.MC", n[6]);
    return t;
}

static char *show_mode5(char *t, const char *item, const int32_t *n)
{
    if (n[2]) {
        struct angle lat = angle(n[18]), lon = angle(n[19]);
        ITEM_LINE(".POS.LAT", n[18]);
        ITEM_LINE(".POS.LAT.udeg", lat.udeg);
        ITEM_LINE(".POS.LAT.left", lat.left);
        ITEM_LINE(".POS.LON", n[19]);
        ITEM_LINE(".POS.LON.udeg", lon.udeg);
        ITEM_LINE(".POS.LON.left", lon.left);
    }
    if (n[3]) {
        ITEM_LINE(".GA.RES", n[20]);
        ITEM_LINE(".GA.GA", n[21]);
    }
    if (n[4]) {
        ITEM_LINE(".EM1.V", n[22]);
        ITEM_LINE(".EM1.G", n[23]);
        ITEM_LINE(".EM1.L", n[24]);
        ITEM_LINE(".EM1.EM1", n[25]);
    }
    if (n[5]) ITEM_LINE(".TOS", n[26]);
    return n[6] ? show_xp(t, item, n + 27) : t;
}

static char *show_md5(char *t, const int32_t *n)
{
    if (n[0]) t = show_sum(t, "MD5", n + 7);
    if (n[1]) {
        LINE("MD5.PMN.PIN", n[14]);
        LINE("MD5.PMN.NAV", n[15]);
        LINE("MD5.PMN.NAT", n[16]);
        LINE("MD5.PMN.MIS", n[17]);
    }
    return show_mode5(t, "MD5", n);
}

static char *show_m5n(char *t, const int32_t *n, int32_t parts)
{
    LINE("M5N.chain", parts);
    if (n[0]) t = show_sum(t, "M5N", n + 8);
    if (n[1]) {
        LINE("M5N.PMN.PIN", n[15]);
        LINE("M5N.PMN.NOV", n[16]);
        LINE("M5N.PMN.NO", n[17]);
    }
    t = show_mode5(t, "M5N", n);
    if (n[7]) LINE("M5N.FOM", n[33]);
    return t;
}

static char *show_rpc(char *t, const int32_t *n)
{
    if (n[0]) LINE("RPC.SCO", n[4]);
    if (n[1]) LINE("RPC.SCR", n[5]);
    if (n[2]) LINE("RPC.RW", n[6]);
    if (n[3]) LINE("RPC.AR", n[7]);
    return t;
}

static char *show_nav(char *t, const int32_t *n)
{
    LINE("NAV.AP", n[0]);
    LINE("NAV.VN", n[1]);
    LINE("NAV.AH", n[2]);
    LINE("NAV.AM", n[3]);
    LINE("NAV.MFM#EP", n[4]);
    LINE("NAV.MFM#VAL", n[5]);
    return t;
}

static char *show_sgv(char *t, const int32_t *n, int32_t parts)
{
    LINE("SGV.chain", parts);
    LINE("SGV.STP", n[0]);
    LINE("SGV.HTS", n[1]);
    LINE("SGV.HTT", n[2]);
    LINE("SGV.HRD", n[3]);
    LINE("SGV.GSS", n[4]);
    if (parts > 1) LINE("SGV.HGT", n[5]);
    return t;
}

static char *show_sta(char *t, const int32_t *n, int32_t parts)
{
    LINE("STA.chain", parts);
    LINE("STA.ES", n[0]);
    LINE("STA.UAT", n[1]);
    LINE("STA.RCE#EP", n[2]);
    LINE("STA.RCE#VAL", n[3]);
    LINE("STA.RRL#EP", n[4]);
    LINE("STA.RRL#VAL", n[5]);
    if (parts < 2) return t;
    LINE("STA.PS3#EP", n[6]);
    LINE("STA.PS3#VAL", n[7]);
    LINE("STA.TPW#EP", n[8]);
    LINE("STA.TPW#VAL", n[9]);
    if (parts < 3) return t;
    LINE("STA.TSI#EP", n[10]);
    LINE("STA.TSI#VAL", n[11]);
    LINE("STA.MUO#EP", n[12]);
    LINE("STA.MUO#VAL", n[13]);
    LINE("STA.RWC#EP", n[14]);
    LINE("STA.RWC#VAL", n[15]);
    if (parts < 4) return t;
    LINE("STA.DAA#EP", n[16]);
    LINE("STA.DAA#VAL", n[17]);
    LINE("STA.DF17CA#EP", n[18]);
    LINE("STA.DF17CA#VAL", n[19]);
    if (parts < 5) return t;
    LINE("STA.SVH#EP", n[20]);
    LINE("STA.SVH#VAL", n[21]);
    LINE("STA.CATC#EP", n[22]);
    LINE("STA.CATC#VAL", n[23]);
    if (parts < 6) return t;
    LINE("STA.TAO#EP", n[24]);
    LINE("STA.TAO#VAL", n[25]);
    return t;
}

static char *show_mes(char *t, const int32_t *n)
{
    if (n[0]) {
        t = show_sum(t, "MES", n + 6);
        LINE("MES.SUM.PO", n[13]);
    }
    if (n[1]) {
        LINE("MES.PNO.PIN", n[14]);
        LINE("MES.PNO.NO", n[15]);
    }
    if (n[2]) {
        LINE("MES.EM1.V", n[16]);
        LINE("MES.EM1.L", n[17]);
        LINE("MES.EM1.EM1", n[18]);
    }
    if (n[3]) t = show_xp(t, "MES", n + 19);
    if (n[4]) LINE("MES.FOM", n[25]);
    if (n[5]) {
        LINE("MES.M2.V", n[26]);
        LINE("MES.M2.L", n[27]);
        LINE("MES.M2.M2", n[28]);
    }
    return t;
}

static char *show_selh(char *t, const int32_t *n)
{
    LINE("SelH.HRD", n[0]);
    LINE("SelH.Stat", n[1]);
    LINE("SelH.SelH", n[2]);
    return t;
}

static char *show_048(char *t, const int32_t *record)
{
    unsigned items = (unsigned)record[1];
    const int32_t *n = record + 10;
    if (items & 0x80) t = show_md5(t, n);
    if (items & 0x40) t = show_m5n(t, n + 33, record[3]);
    if (items & 0x20) LINE("M4E", n[67]);
    if (items & 0x10) t = show_rpc(t, n + 68);
    if (items & 0x08) LINE("ERR", n[76]);
    return t;
}

static char *show_007(char *t, const int32_t *record)
{
    unsigned items = (unsigned)record[1];
    const int32_t *n = record + 10;
    if (items & 0x80) {
        LINE("TA.TAmax", n[0]);
        LINE("TA.TAmin", n[1]);
    }
    if (items & 0x40) t = show_m5n(t, n + 2, record[3]);
    if (items & 0x20) LINE("M4E", n[36]);
    if (items & 0x10) t = show_rpc(t, n + 37);
    if (items & 0x08) LINE("ERR", n[45]);
    return t;
}

/* The settings that a number stands for beside its tenths: at an end all beyond it too. */
static char *show_sense(char *t, int32_t n)
{
    if (n == 0) return put(t, "BPS.sense=atmost\n", 17);
    if (n == 4095) return put(t, "BPS.sense=atleast\n", 18);
    return put(t, "BPS.sense=equal\n", 16);
}

static char *show_021(char *t, const int32_t *record)
{
    unsigned items = (unsigned)record[1];
    const int32_t *n = record + 10;
    if (items & 0x80) {
        LINE("BPS", n[0]);
        LINE("BPS.tenths", 8000 + n[0]);
        t = show_sense(t, n[0]);
    }
    if (items & 0x40) t = show_selh(t, n + 1);
    if (items & 0x20) t = show_nav(t, n + 4);
    if (items & 0x10) {
        LINE("GAO.Lateral", n[10]);
        LINE("GAO.Longitudinal", n[11]);
    }
    if (items & 0x08) t = show_sgv(t, n + 12, record[6]);
    if (items & 0x04) t = show_sta(t, n + 18, record[7]);
    if (items & 0x02) LINE("TNH", n[44]);
    if (items & 0x01) t = show_mes(t, n + 45);
    return t;
}

/* The names of the present items, with a comma between two. */
static char *show_names(char *t, uint8_t cat, unsigned items)
{
    static const char NAMES[3][8][5] = {
        { "MD5", "M5N", "M4E", "RPC", "ERR" },
        { "BPS", "SelH", "NAV", "GAO", "SGV", "STA", "TNH", "MES" },
        { "TA", "M5N", "M4E", "RPC", "ERR" }
    };
    const char(*names)[5] = NAMES[cat == 48 ? 0 : cat == 21 ? 1 : 2];
    bool first = true;
    t = put(t, "items=", 6);
    for (unsigned i = 0; i < 8; i++) {
        if (!(items & 0x80 >> i)) continue;
        if (!first) *t++ = ',';
        for (const char *s = names[i]; *s; s++) *t++ = *s;
        first = false;
    }
    *t++ = '\n';
    return t;
}

static char *show_refusal(char *t, uint64_t answer)
{
    LINE("refused", (int32_t)(answer >> 48));
    LINE("at", (int32_t)(answer >> 16 & 0xFFFF));
    return t;
}

static char *show_field(char *t, uint8_t cat, const uint8_t *field, size_t n)
{
    place start[9];
    int32_t record[PLAIN_RECORD];
    LINE("cat", cat);
    uint64_t answer = walk_field(cat, field, n, start);
    if (answer) return show_refusal(t, answer);
    take_record(cat, field, start, record);
    LINE("len", field[0]);
    t = show_names(t, cat, field[1]);
    t = cat == 48 ? show_048(t, record) : cat == 21 ? show_021(t, record) : show_007(t, record);
    return put(t, "end=ok\n", 7);
}

uint64_t plain_sheet(const uint8_t *input, size_t n, uint8_t *out, size_t room)
{
    char text[2048], *t = text; /* the longest sheet has 1,055 octets */
    if (n == 0) {
        t = show_refusal(put(t, "cat=none\n", 9), refused(SHORT_SLICE, 0));
    } else {
        t = show_field(t, input[0], input + 1, n - 1 < 255 ? n - 1 : 255);
    }
    size_t length = (size_t)(t - text);
    if (length > room) return refused(NO_ROOM, 0);
    memcpy(out, text, length);
    return length;
}
