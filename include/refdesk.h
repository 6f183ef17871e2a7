/*
 * The Reserved Expansion Field of ASTERIX categories 048, 021 and 007: read, written, viewed, edited, copied, listed and
 * rebuilt.
 *
 * The functions are proved: whatever the octets and numbers, each answers and leaves exactly what document 01 (01-scope.md)
 * says, ref_copy and ref_rebuild what 02 (02-change-requests.md, Asks 5 and 6) says, and reads and writes only what it is
 * lent. They keep no state and allocate nothing, so threads may call them at once. Link librefdesk.a, which `make` builds for
 * x86-64 Linux as target/lib/librefdesk.a: `pkg-config --cflags --libs refdesk` says how where it is installed. This file is
 * C99 or later, or C++. tests/c has an example.
 *
 * Memory is lent for the call and not kept. Each pointer is followed by its count of elements; it is not NULL, also where
 * the count is 0. What is lent as const is only read, and may be lent twice. What is lent for writing (`record` of
 * ref_read, `out`) must overlap nothing else that the call is lent, and no other thread may use it meanwhile.
 */
#ifndef REFDESK_H
#define REFDESK_H

#include <stddef.h>
#include <stdint.h>

#ifdef __cplusplus
extern "C" {
#endif

/*
 * The answer of every function is one word of four numbers of 16 bits each, the highest first:
 *
 *     bits 63..48   the number of the refusal, 0 if there is none
 *     bits 47..32   which field is meant, by ref_choose; the category, by ref_rebuild; else 0
 *     bits 31..16   the place of the refusal, counted from LEN, by ref_rebuild its line; or the start of the item that is
 *                   shown
 *     bits 15..0    the length of what was read, written or shown; 0 on a refusal
 */
#define REF_NUMBER(word) ((unsigned)((uint64_t)(word) >> 48))
#define REF_WHICH(word) ((unsigned)((uint64_t)(word) >> 32 & 0xFFFF))
#define REF_CAT(word) REF_WHICH(word)
#define REF_PLACE(word) ((size_t)((uint64_t)(word) >> 16 & 0xFFFF))
#define REF_START(word) REF_PLACE(word)
#define REF_LINE(word) REF_PLACE(word)
#define REF_LENGTH(word) ((size_t)((uint64_t)(word) & 0xFFFF))

/* The refusals. On every one of them all memory that was lent is as before. */
enum ref_number {
    REF_ACCEPTED = 0,
    REF_CATEGORY = 1,   /* category is not 7, 21 or 48 */
    REF_SHORT = 2,      /* field empty, or shorter than LEN */
    REF_LEN = 3,        /* LEN is 0 or 1 */
    REF_INDICATOR = 4,  /* spare bit set in the items indicator */
    REF_CUT = 5,        /* chain part or subfield not wholly before LEN */
    REF_SPARE = 6,      /* spare bit set in a chain part or subfield */
    REF_CHAIN = 7,      /* FX set in the last part that the edition defines */
    REF_RANGE = 8,      /* latitude or GA out of range */
    REF_LEFT = 9,       /* octets left between the last item and LEN */
    REF_RECORD = 10,    /* record that no field reads to */
    REF_ROOM = 11,      /* output shorter than the result */
    REF_ITEM = 12,      /* item number is not one of the category's */
    REF_LIST = 13,      /* item is not on the slot's list */
    REF_NEW = 14,       /* new octets are not exactly one such item */
    REF_ABSENT = 15,    /* item absent */
    REF_TEXT = 18       /* text that is no sheet of a field */
};

/* The bit of an item, counted from 1, in a list; the list of several items is the sum of their bits. */
#define REF_LISTED(item) ((uint8_t)(0x80 >> ((item) - 1)))

/* Which field an answer of ref_choose is about. */
enum ref_which { REF_NEITHER = 0, REF_BASE = 1, REF_CORRECTION = 2 };

/* No field of any category is longer, so an output of as many octets has room for every result. */
#define REF_LONGEST 52

/*
 * A record is an array of 87 numbers: the category; the items, laid out as the indicator (the first item has the highest of
 * 8 bits); the parts of the chain of each of 8 items; 77 numbers, each at its slot, which docs/NUMBERS.md lists for each
 * category and the enums below name. What is absent has 0 parts and numbers 0.
 */
#define REF_RECORD_CAT 0
#define REF_RECORD_ITEMS 1
#define REF_RECORD_PARTS 2
#define REF_RECORD_NUMBERS 10
#define REF_RECORD_PLACES 87

/* ---- items, slots and words: made by `python3 tests/ways.py write`, not by hand */

/* The number of each item of a category. REF_LISTED gives its bit in a list. */
enum ref_item_048 {
    REF_ITEM_048_MD5 = 1, REF_ITEM_048_M5N = 2, REF_ITEM_048_M4E = 3, REF_ITEM_048_RPC = 4, REF_ITEM_048_ERR = 5
};

enum ref_item_021 {
    REF_ITEM_021_BPS = 1, REF_ITEM_021_SELH = 2, REF_ITEM_021_NAV = 3, REF_ITEM_021_GAO = 4, REF_ITEM_021_SGV = 5,
    REF_ITEM_021_STA = 6, REF_ITEM_021_TNH = 7, REF_ITEM_021_MES = 8
};

enum ref_item_007 {
    REF_ITEM_007_TA = 1, REF_ITEM_007_M5N = 2, REF_ITEM_007_M4E = 3, REF_ITEM_007_RPC = 4, REF_ITEM_007_ERR = 5
};

/*
 * The slot of each number in a record of a category. Its index in the record's array is REF_RECORD_NUMBERS + slot. A name
 * with HAS is that of a presence flag, 1 if the subfield is there. docs/NUMBERS.md has bits, sign, limits, LSB and unit.
 */
enum ref_slot_048 {
    REF_048_HAS_MD5_SUM = 0, REF_048_HAS_MD5_PMN = 1, REF_048_HAS_MD5_POS = 2, REF_048_HAS_MD5_GA = 3,
    REF_048_HAS_MD5_EM1 = 4, REF_048_HAS_MD5_TOS = 5, REF_048_HAS_MD5_XP = 6,
    REF_048_MD5_SUM_M5 = 7, REF_048_MD5_SUM_ID = 8, REF_048_MD5_SUM_DA = 9, REF_048_MD5_SUM_M1 = 10,
    REF_048_MD5_SUM_M2 = 11, REF_048_MD5_SUM_M3 = 12, REF_048_MD5_SUM_MC = 13,
    REF_048_MD5_PMN_PIN = 14, REF_048_MD5_PMN_NAV = 15, REF_048_MD5_PMN_NAT = 16, REF_048_MD5_PMN_MIS = 17,
    REF_048_MD5_POS_LAT = 18, REF_048_MD5_POS_LON = 19,
    REF_048_MD5_GA_RES = 20, REF_048_MD5_GA_GA = 21,
    REF_048_MD5_EM1_V = 22, REF_048_MD5_EM1_G = 23, REF_048_MD5_EM1_L = 24, REF_048_MD5_EM1_EM1 = 25,
    REF_048_MD5_TOS = 26,
    REF_048_MD5_XP_XP = 27, REF_048_MD5_XP_X5 = 28, REF_048_MD5_XP_XC = 29, REF_048_MD5_XP_X3 = 30,
    REF_048_MD5_XP_X2 = 31, REF_048_MD5_XP_X1 = 32,
    REF_048_HAS_M5N_SUM = 33, REF_048_HAS_M5N_PMN = 34, REF_048_HAS_M5N_POS = 35, REF_048_HAS_M5N_GA = 36,
    REF_048_HAS_M5N_EM1 = 37, REF_048_HAS_M5N_TOS = 38, REF_048_HAS_M5N_XP = 39,
    REF_048_HAS_M5N_FOM = 40,
    REF_048_M5N_SUM_M5 = 41, REF_048_M5N_SUM_ID = 42, REF_048_M5N_SUM_DA = 43, REF_048_M5N_SUM_M1 = 44,
    REF_048_M5N_SUM_M2 = 45, REF_048_M5N_SUM_M3 = 46, REF_048_M5N_SUM_MC = 47,
    REF_048_M5N_PMN_PIN = 48, REF_048_M5N_PMN_NOV = 49, REF_048_M5N_PMN_NO = 50,
    REF_048_M5N_POS_LAT = 51, REF_048_M5N_POS_LON = 52,
    REF_048_M5N_GA_RES = 53, REF_048_M5N_GA_GA = 54,
    REF_048_M5N_EM1_V = 55, REF_048_M5N_EM1_G = 56, REF_048_M5N_EM1_L = 57, REF_048_M5N_EM1_EM1 = 58,
    REF_048_M5N_TOS = 59,
    REF_048_M5N_XP_XP = 60, REF_048_M5N_XP_X5 = 61, REF_048_M5N_XP_XC = 62, REF_048_M5N_XP_X3 = 63,
    REF_048_M5N_XP_X2 = 64, REF_048_M5N_XP_X1 = 65,
    REF_048_M5N_FOM = 66,
    REF_048_M4E = 67,
    REF_048_HAS_RPC_SCO = 68, REF_048_HAS_RPC_SCR = 69, REF_048_HAS_RPC_RW = 70, REF_048_HAS_RPC_AR = 71,
    REF_048_RPC_SCO = 72,
    REF_048_RPC_SCR = 73,
    REF_048_RPC_RW = 74,
    REF_048_RPC_AR = 75,
    REF_048_ERR = 76
};

enum ref_slot_021 {
    REF_021_BPS = 0,
    REF_021_SELH_HRD = 1, REF_021_SELH_STAT = 2, REF_021_SELH_SELH = 3,
    REF_021_NAV_AP = 4, REF_021_NAV_VN = 5, REF_021_NAV_AH = 6, REF_021_NAV_AM = 7, REF_021_NAV_MFM_EP = 8,
    REF_021_NAV_MFM_VAL = 9,
    REF_021_GAO_LATERAL = 10, REF_021_GAO_LONGITUDINAL = 11,
    REF_021_SGV_STP = 12, REF_021_SGV_HTS = 13, REF_021_SGV_HTT = 14, REF_021_SGV_HRD = 15, REF_021_SGV_GSS = 16,
    REF_021_SGV_HGT = 17,
    REF_021_STA_ES = 18, REF_021_STA_UAT = 19, REF_021_STA_RCE_EP = 20, REF_021_STA_RCE_VAL = 21,
    REF_021_STA_RRL_EP = 22, REF_021_STA_RRL_VAL = 23,
    REF_021_STA_PS3_EP = 24, REF_021_STA_PS3_VAL = 25, REF_021_STA_TPW_EP = 26, REF_021_STA_TPW_VAL = 27,
    REF_021_STA_TSI_EP = 28, REF_021_STA_TSI_VAL = 29, REF_021_STA_MUO_EP = 30, REF_021_STA_MUO_VAL = 31,
    REF_021_STA_RWC_EP = 32, REF_021_STA_RWC_VAL = 33,
    REF_021_STA_DAA_EP = 34, REF_021_STA_DAA_VAL = 35, REF_021_STA_DF17CA_EP = 36, REF_021_STA_DF17CA_VAL = 37,
    REF_021_STA_SVH_EP = 38, REF_021_STA_SVH_VAL = 39, REF_021_STA_CATC_EP = 40, REF_021_STA_CATC_VAL = 41,
    REF_021_STA_TAO_EP = 42, REF_021_STA_TAO_VAL = 43,
    REF_021_TNH = 44,
    REF_021_HAS_MES_SUM = 45, REF_021_HAS_MES_PNO = 46, REF_021_HAS_MES_EM1 = 47, REF_021_HAS_MES_XP = 48,
    REF_021_HAS_MES_FOM = 49, REF_021_HAS_MES_M2 = 50,
    REF_021_MES_SUM_M5 = 51, REF_021_MES_SUM_ID = 52, REF_021_MES_SUM_DA = 53, REF_021_MES_SUM_M1 = 54,
    REF_021_MES_SUM_M2 = 55, REF_021_MES_SUM_M3 = 56, REF_021_MES_SUM_MC = 57, REF_021_MES_SUM_PO = 58,
    REF_021_MES_PNO_PIN = 59, REF_021_MES_PNO_NO = 60,
    REF_021_MES_EM1_V = 61, REF_021_MES_EM1_L = 62, REF_021_MES_EM1_EM1 = 63,
    REF_021_MES_XP_XP = 64, REF_021_MES_XP_X5 = 65, REF_021_MES_XP_XC = 66, REF_021_MES_XP_X3 = 67,
    REF_021_MES_XP_X2 = 68, REF_021_MES_XP_X1 = 69,
    REF_021_MES_FOM = 70,
    REF_021_MES_M2_V = 71, REF_021_MES_M2_L = 72, REF_021_MES_M2_M2 = 73
};

enum ref_slot_007 {
    REF_007_TA_TAMAX = 0, REF_007_TA_TAMIN = 1,
    REF_007_HAS_M5N_SUM = 2, REF_007_HAS_M5N_PMN = 3, REF_007_HAS_M5N_POS = 4, REF_007_HAS_M5N_GA = 5,
    REF_007_HAS_M5N_EM1 = 6, REF_007_HAS_M5N_TOS = 7, REF_007_HAS_M5N_XP = 8,
    REF_007_HAS_M5N_FOM = 9,
    REF_007_M5N_SUM_M5 = 10, REF_007_M5N_SUM_ID = 11, REF_007_M5N_SUM_DA = 12, REF_007_M5N_SUM_M1 = 13,
    REF_007_M5N_SUM_M2 = 14, REF_007_M5N_SUM_M3 = 15, REF_007_M5N_SUM_MC = 16,
    REF_007_M5N_PMN_PIN = 17, REF_007_M5N_PMN_NOV = 18, REF_007_M5N_PMN_NO = 19,
    REF_007_M5N_POS_LAT = 20, REF_007_M5N_POS_LON = 21,
    REF_007_M5N_GA_RES = 22, REF_007_M5N_GA_GA = 23,
    REF_007_M5N_EM1_V = 24, REF_007_M5N_EM1_G = 25, REF_007_M5N_EM1_L = 26, REF_007_M5N_EM1_EM1 = 27,
    REF_007_M5N_TOS = 28,
    REF_007_M5N_XP_XP = 29, REF_007_M5N_XP_X5 = 30, REF_007_M5N_XP_XC = 31, REF_007_M5N_XP_X3 = 32,
    REF_007_M5N_XP_X2 = 33, REF_007_M5N_XP_X1 = 34,
    REF_007_M5N_FOM = 35,
    REF_007_M4E = 36,
    REF_007_HAS_RPC_SCO = 37, REF_007_HAS_RPC_SCR = 38, REF_007_HAS_RPC_RW = 39, REF_007_HAS_RPC_AR = 40,
    REF_007_RPC_SCO = 41,
    REF_007_RPC_SCR = 42,
    REF_007_RPC_RW = 43,
    REF_007_RPC_AR = 44,
    REF_007_ERR = 45
};

/*
 * What an answer's REF_NUMBER says, in words: "accepted" for 0, and "no such refusal" for a number that is none. It is the one
 * function that stands here and not in the archive, and nothing is proved of it: the words are those of docs/PROTOCOL.md.
 */
static inline const char *ref_words(unsigned number)
{
    switch (number) {
    case 0: return "accepted";
    case 1: return "category is not 7, 21 or 48";
    case 2: return "field empty, or shorter than LEN";
    case 3: return "LEN is 0 or 1";
    case 4: return "spare bit set in the items indicator";
    case 5: return "chain part or subfield not wholly before LEN";
    case 6: return "spare bit set in a chain part or subfield";
    case 7: return "FX set in the last part that the edition defines";
    case 8: return "latitude or GA out of range";
    case 9: return "octets left between the last item and LEN";
    case 10: return "record that no field reads to";
    case 11: return "output shorter than the result";
    case 12: return "item number is not one of the category's";
    case 13: return "item is not on the slot's list";
    case 14: return "new octets are not exactly one such item";
    case 15: return "item absent";
    case 18: return "text that is no sheet of a field";
    default: return "no such refusal";
    }
}

/* ---- end of what is made */

/*
 * Reads a field of a category into a record, whose array must have 87 places. Octets behind LEN are not looked at.
 * Answers LEN. Refused, in this order: 1 to 9 for the field; 11 for an array of another length.
 */
uint64_t ref_read(uint8_t cat, const uint8_t *field, size_t field_len, int32_t *record, size_t record_len);

/*
 * Writes a record as a field into the front of the output; the rest of the output is as before.
 * Answers LEN. Refused, in this order: 10 for an array that has not 87 places; 1; 10 for a record that no field reads to,
 * such as one whose items or parts are not from 0 to 255; 11.
 */
uint64_t ref_write(const int32_t *record, size_t record_len, uint8_t *out, size_t out_len);

/*
 * Finds an item of a field; items are counted from 1.
 * Answers where it stands: REF_LENGTH octets from field + REF_START on. Refused, in this order: 1 to 9 for the field, 12, 15.
 */
uint64_t ref_view(uint8_t cat, const uint8_t *field, size_t field_len, uint8_t item);

/*
 * Finds an item in a correction, or else in its base, two fields of one category.
 * Answers where it stands in the field that REF_WHICH names. Refused, in this order: 1; 2 to 9 for the base; 2 to 9 for the
 * correction; 12; 15. Then REF_WHICH names the field that was refused; it is REF_NEITHER for 1, 12 and 15.
 */
uint64_t ref_choose(uint8_t cat, const uint8_t *base, size_t base_len, const uint8_t *correction,
                    size_t correction_len, uint8_t item);

/*
 * Removes an item from a field, by a slot that was booked for the items of a list, laid out as the indicator. The edited
 * field goes into the front of the output; the rest of the output is as before. An absent item leaves the field as it is.
 * Answers LEN of the edited field. Refused, in this order: 1 to 9 for the field, 12, 13, 11.
 */
uint64_t ref_remove(uint8_t cat, const uint8_t *field, size_t field_len, uint8_t list, uint8_t item, uint8_t *out,
                    size_t out_len);

/*
 * Replaces an item by new octets, or adds it; all else as ref_remove. The new octets are the whole item, its chain first.
 * Answers LEN of the edited field. Refused, in this order: 1 to 9 for the field, 12, 13, 14, 11.
 */
uint64_t ref_replace(uint8_t cat, const uint8_t *field, size_t field_len, uint8_t list, uint8_t item,
                     const uint8_t *new_octets, size_t new_len, uint8_t *out, size_t out_len);

/*
 * Copies a field without the items of a list, laid out as the indicator: what is withheld from visitors. The copy goes into
 * the front of the output; the rest of the output is as before. Bits of no item have no effect.
 * Two fields of one category whose items off the list are alike are answered alike and leave the same octets, whatever
 * stands in the items on the list. How long it takes may tell them apart.
 * Answers LEN of the copy. Refused, in this order: 1 to 9 for the field, which may tell of items on the list too; 11 where
 * the output is shorter than the copy.
 */
uint64_t ref_copy(uint8_t cat, const uint8_t *field, size_t field_len, uint8_t withheld, uint8_t *out, size_t out_len);

/*
 * Writes the sheet of an input, a category octet and then a field, as text into the front of the output; the rest of the
 * output is as before. A field that is refused has a sheet too, which says so, and so has an input of no octets.
 * Answers the length of the text, at most REF_SHEET. Refused: 11 where the output is shorter than the text.
 */
#define REF_SHEET 1055
uint64_t ref_sheet(const uint8_t *input, size_t input_len, uint8_t *out, size_t out_len);

/*
 * Rebuilds a field from its sheet: exactly the texts that ref_sheet writes for a field that is not refused are accepted. The
 * field goes into the front of the output; the rest of the output is as before.
 * Answers LEN of the field, and its category as REF_CAT. Refused, in this order: 18 at line 0 for a text of more than
 * 32,768 octets; 18 at the first line, counted from 1, at which no sheet could still agree with the lines so far, whatever
 * value `len` has: one that is wrong, has no line feed, is missing where the text stops early, or follows `end=ok`; 18 at
 * line 2 if the value of `len` alone is wrong; 11 at 0. REF_LINE is the line, and REF_CAT is then 0.
 */
#define REF_LONGEST_TEXT 32768
uint64_t ref_rebuild(const uint8_t *text, size_t text_len, uint8_t *out, size_t out_len);

#ifdef __cplusplus
}
#endif

#endif
