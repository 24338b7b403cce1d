/* The records of a log. */
#ifndef LOG_H
#define LOG_H

#include "bytes.h"

/* A log record: kind (1), module and host (1), revision (2), function (2), request length (2),
 * request padded with zeros. A health reading has its five bytes where a request begins. */
enum {
    LOG_RECORD = 544,
    KIND_AT = 0,
    HOST_AT = 1,
    REVISION_AT = 2,
    FUNCTION_AT = 4,
    LENGTH_AT = 6,
    REQUEST_AT = 8,
    REQUEST_MOST = LOG_RECORD - REQUEST_AT,
    SPARE_AT = 8,
    MEDIA_AT = 9,
    CONTROLLER_AT = 11,
    READING_END = 13,
    LOG_PART = 120 * LOG_RECORD /* what is read at once */
};

/* The host byte: its high four bits name the module, its low four the host, 0 where no host calls. */
static inline unsigned module_of(const uint8_t *record)
{
    return record[HOST_AT] >> 4;
}

static inline unsigned host_of(const uint8_t *record)
{
    return record[HOST_AT] & 15;
}

#endif
