/* The selector is byte 0; behind it slot 0, then slot 1. */
#include "slots.h"

static bool are_slots(const uint8_t *slots, size_t slots_len)
{
    return slots_len == SLOTS_BYTES && slots[0] <= 1;
}

int32_t independent_slots_fresh(uint8_t *slots, size_t slots_len)
{
    if (slots_len != SLOTS_BYTES)
        return SLOTS_REFUSED;
    memset(slots, 0, SLOTS_BYTES);
    return independent_fresh(slots + 1, RECORD_BYTES);
}

int32_t independent_slots_write(uint8_t *slots, size_t slots_len, const uint8_t *record,
                                size_t record_len)
{
    if (!are_slots(slots, slots_len) || record_len != RECORD_BYTES)
        return SLOTS_REFUSED;
    if (slots[0] == 0) {
        memcpy(slots + 1 + RECORD_BYTES, record, RECORD_BYTES);
        return 1;
    }
    memcpy(slots + 1, record, RECORD_BYTES);
    return 0;
}

int32_t independent_slots_select(uint8_t *slots, size_t slots_len, uint64_t slot)
{
    if (!are_slots(slots, slots_len) || slot > 1)
        return SLOTS_REFUSED;
    slots[0] = slot == 1;
    return 0;
}

int32_t independent_slots_read(const uint8_t *slots, size_t slots_len, uint8_t *record,
                               size_t record_len)
{
    if (!are_slots(slots, slots_len) || record_len != RECORD_BYTES)
        return SLOTS_REFUSED;
    memcpy(record, slots[0] == 0 ? slots + 1 : slots + 1 + RECORD_BYTES, RECORD_BYTES);
    return 0;
}
