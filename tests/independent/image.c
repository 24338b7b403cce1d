/* Images made from a payload and a version, and read back: document 02, T-02. */
#include "image.h"
#include "module.h"

/* The fields around a payload part that is in its place. */
static void close_record(uint8_t *record, size_t number, size_t count, uint64_t version)
{
    put16(record + NUMBER_AT, (uint16_t)number);
    put16(record + COUNT_AT, (uint16_t)count);
    put64(record + VERSION_AT, version);
    put32(record + SUM_AT, word_sum(record));
}

int32_t independent_image_make(uint64_t version, const uint8_t *payload, size_t payload_len,
                               uint8_t *output, size_t output_len)
{
    size_t whole = payload_len / IMAGE_PART; /* parts that need no padding */
    size_t rest = payload_len % IMAGE_PART;
    size_t count = whole + (rest != 0 || whole == 0);

    if (version == 0)
        return MAKE_VERSION_0;
    if (payload_len > PAYLOAD_MOST)
        return MAKE_PAYLOAD_OVER;
    if (output_len < count * IMAGE_RECORD)
        return MAKE_OUTPUT_SHORT;
    for (size_t i = 0; i < whole; i++) {
        uint8_t *record = output + i * IMAGE_RECORD;
        memcpy(record + PAYLOAD_AT, payload + i * IMAGE_PART, IMAGE_PART);
        close_record(record, i, count, version);
    }
    if (count > whole) {
        uint8_t *record = output + whole * IMAGE_RECORD;
        memset(record + PAYLOAD_AT, 0, IMAGE_PART);
        memcpy(record + PAYLOAD_AT, payload + whole * IMAGE_PART, rest);
        close_record(record, whole, count, version);
    }
    return (int32_t)(count * IMAGE_RECORD);
}

int32_t independent_image_read(const uint8_t *image, size_t image_len, uint8_t *output,
                               size_t output_len)
{
    size_t count = image_len / IMAGE_RECORD;

    if (image_check(image, image_len).fault != NO_FAULT)
        return READ_NOT_GOOD;
    if (output_len < count * IMAGE_PART)
        return READ_OUTPUT_SHORT;
    for (size_t i = 0; i < count; i++)
        memcpy(output + i * IMAGE_PART, image + i * IMAGE_RECORD + PAYLOAD_AT, IMAGE_PART);
    return (int32_t)(count * IMAGE_PART);
}
