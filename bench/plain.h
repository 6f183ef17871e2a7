/* The reader, the writer, the view, the editor and the sheet of document 01 in plain C, to compare crates/exports with.
   The arguments and the answers are those of include/refdesk.h: one word, refusal number (0 for none) * 2^48
   + which * 2^32 + place * 2^16 + length; a record is PLAIN_RECORD numbers: category, items, 8 parts, 77 numbers. */
#ifndef PLAIN_H
#define PLAIN_H

#include <stddef.h>
#include <stdint.h>

#define PLAIN_RECORD 87

uint64_t plain_read(uint8_t cat, const uint8_t *field, size_t n, int32_t *record, size_t length);
uint64_t plain_write(const int32_t *record, size_t length, uint8_t *out, size_t room);
uint64_t plain_view(uint8_t cat, const uint8_t *field, size_t n, uint8_t item);
uint64_t plain_remove(uint8_t cat, const uint8_t *field, size_t n, uint8_t list, uint8_t item, uint8_t *out,
                      size_t room);
uint64_t plain_replace(uint8_t cat, const uint8_t *field, size_t n, uint8_t list, uint8_t item, const uint8_t *octets,
                       size_t m, uint8_t *out, size_t room);
uint64_t plain_sheet(const uint8_t *input, size_t n, uint8_t *out, size_t room);

#endif
