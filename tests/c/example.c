/*
 * Reads a field of category 048, replaces its item ERR by a slot that was booked for RPC and ERR, and prints both fields; and
 * what that slot is told when it takes M4E away.
 */
#include "refdesk.h"

#include <stdio.h>

static void print_field(const char *name, const uint8_t *field, size_t n)
{
    printf("%s:", name);
    for (size_t i = 0; i < n; i++)
        printf(" %02X", field[i]);
    printf("\n");
}

/* Whether an answer is a refusal; then it is printed. */
static int refused(uint64_t word)
{
    if (REF_NUMBER(word) == REF_ACCEPTED)
        return 0;
    printf("refused by %u at %zu: %s\n", REF_NUMBER(word), REF_PLACE(word), ref_words(REF_NUMBER(word)));
    return 1;
}

/* The items of a field, and the numbers that are not 0 with their slots. */
static int print_record(const uint8_t *field, size_t n)
{
    int32_t record[REF_RECORD_PLACES];
    if (refused(ref_read(48, field, n, record, REF_RECORD_PLACES)))
        return 1;
    printf("  items %02X", (unsigned)record[REF_RECORD_ITEMS]);
    for (int i = REF_RECORD_NUMBERS; i < REF_RECORD_PLACES; i++)
        if (record[i] != 0)
            printf(", slot %d is %d", i - REF_RECORD_NUMBERS, (int)record[i]);
    printf("\n");
    return 0;
}

int main(void)
{
    const uint8_t field[] = {0x06, 0x28, 0x06, 0x01, 0x00, 0x00};
    const uint8_t err[] = {0x02, 0x00, 0x00};
    const uint8_t item = REF_ITEM_048_ERR, list = REF_LISTED(REF_ITEM_048_RPC) | REF_LISTED(REF_ITEM_048_ERR);
    uint8_t out[REF_LONGEST];

    print_field("field", field, sizeof field);
    if (print_record(field, sizeof field) != 0)
        return 1;

    uint64_t word = ref_view(48, field, sizeof field, item);
    if (refused(word))
        return 1;
    print_field("item 5", field + REF_START(word), REF_LENGTH(word));

    word = ref_replace(48, field, sizeof field, list, item, err, sizeof err, out, sizeof out);
    if (refused(word))
        return 1;
    print_field("edited", out, REF_LENGTH(word));
    if (print_record(out, REF_LENGTH(word)) != 0)
        return 1;

    return !refused(ref_remove(48, field, sizeof field, list, REF_ITEM_048_M4E, out, sizeof out));
}
