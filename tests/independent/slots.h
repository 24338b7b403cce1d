/* Two slots for the record's 288 bytes and a selector, in 577 bytes. */
#ifndef SLOTS_H
#define SLOTS_H

#include "record.h"

enum { SLOTS_BYTES = 1 + 2 * RECORD_BYTES, SLOTS_REFUSED = -1 };

/* 0; a fresh cabinet's record in slot 0, which is selected, and zeros in slot 1. */
int32_t independent_slots_fresh(uint8_t *slots, size_t slots_len);

/* The number of the slot written, the one that is not selected. */
int32_t independent_slots_write(uint8_t *slots, size_t slots_len, const uint8_t *record,
                                size_t record_len);

/* 0; the slot is selected. */
int32_t independent_slots_select(uint8_t *slots, size_t slots_len, uint64_t slot);

/* 0; the selected slot's bytes. */
int32_t independent_slots_read(const uint8_t *slots, size_t slots_len, uint8_t *record,
                               size_t record_len);

#endif
