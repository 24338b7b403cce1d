/* Images of the house form: the layout of their records, and making and reading them. */
#ifndef IMAGE_H
#define IMAGE_H

#include "bytes.h"

/* 01, "Good image": 1 to 128 records, and where a record has its fields. */
enum {
    IMAGE_RECORD = 128,
    IMAGE_RECORDS_MOST = 128,
    NUMBER_AT = 0,   /* 2 bytes */
    COUNT_AT = 2,    /* 2 bytes */
    VERSION_AT = 4,  /* 8 bytes */
    PAYLOAD_AT = 12, /* up to the sum */
    SUM_AT = 124,    /* 4 bytes */
    IMAGE_PART = SUM_AT - PAYLOAD_AT,
    IMAGE_MOST = IMAGE_RECORDS_MOST * IMAGE_RECORD,
    PAYLOAD_MOST = IMAGE_RECORDS_MOST * IMAGE_PART
};

/* The sum of the 31 words before an image record's last. */
static inline uint32_t word_sum(const uint8_t *record)
{
    uint32_t sum = 0;

    for (size_t at = 0; at < SUM_AT; at += 4)
        sum += get32(record + at);
    return sum;
}

/* What the two functions below give in the place of a length, having written nothing. */
enum { MAKE_VERSION_0 = -1, MAKE_PAYLOAD_OVER = -2, MAKE_OUTPUT_SHORT = -3 };
enum { READ_NOT_GOOD = -1, READ_OUTPUT_SHORT = -2 };

/* The records of a payload and a version, and how many bytes they are. What is behind them in
 * the output stays. The buffers must not overlap. */
int32_t independent_image_make(uint64_t version, const uint8_t *payload, size_t payload_len,
                               uint8_t *output, size_t output_len);

/* The payload of a good image with its padding, and how many bytes it is, likewise. */
int32_t independent_image_read(const uint8_t *image, size_t image_len, uint8_t *output,
                               size_t output_len);

#endif
