/* Two hosts, two modules, one staging area: the bench updates module 0 while a laptop tries to do the same, and is refused; it is
 * refused module 1 too while the area is the bench's, and comes again later. Before and after the bench asks for module 0's health.
 * The record is kept in its slots at every step, as module.h says under "Power loss".
 * examples/build says how to build it; examples/two_hosts.expected is what it prints. */
#include <stdio.h>
#include <string.h>

#include "module.h"

enum { BENCHS = 0, LAPTOPS = 1 }; /* the modules that each updates */

enum { PAYLOAD_SIZE = 1100, IMAGE_RECORDS = 10, IMAGE_SIZE = IMAGE_RECORDS * MODULE_IMAGE_RECORD, VERSION = 7 };

/* What outlives power. */
static uint8_t slots[MODULE_SLOTS_SIZE];

/* What does not: the record that the functions work on, the area, and the answer buffer that is lent to each call. */
static uint8_t record[MODULE_RECORD_SIZE];
static uint8_t area[MODULE_AREA_SIZE];
static uint8_t answer[MODULE_ANSWER_LEAST];

static const uint8_t nothing[1]; /* an empty request points here */

static void put(uint8_t *at, int width, uint64_t number)
{
    for (int i = 0; i < width; i++)
        at[i] = (uint8_t)(number >> (8 * i));
}

static uint64_t get(const uint8_t *at, int width)
{
    uint64_t number = 0;

    for (int i = width; i > 0; i--)
        number = number << 8 | at[i - 1];
    return number;
}

/* Stands for the platform's own flush, which returns when these bytes are in memory for good. Here there is nothing to do. */
static void flush(const uint8_t *at, size_t length)
{
    (void)at;
    (void)length;
}

/* Keeps the record: the slot, and only then the selector, and only then whatever the caller does next. 1 where it is kept. */
static int keep(void)
{
    int32_t slot = slots_write(slots, sizeof slots, record, sizeof record);

    if (slot < 0)
        return 0;
    flush(slots + 1 + slot * MODULE_RECORD_SIZE, MODULE_RECORD_SIZE);
    if (slots_select(slots, sizeof slots, (uint64_t)slot) != 0)
        return 0;
    flush(slots, 1);
    return 1;
}

/* A new cabinet, once in its life. */
static int make(void)
{
    if (slots_fresh(slots, sizeof slots) != 0)
        return 0;
    flush(slots, sizeof slots);
    return 1;
}

/* Power comes back to both modules, and to whatever ordinary memory holds by then. */
static int power_up(void)
{
    memset(record, 0xEE, sizeof record);
    memset(area, 0xEE, sizeof area);
    return slots_read(slots, sizeof slots, record, sizeof record) == 0
        && cabinet_power(record, sizeof record, area, sizeof area, BENCHS) == 0
        && cabinet_power(record, sizeof record, area, sizeof area, LAPTOPS) == 0 && keep();
}

/* Module 0's sensors have been read. */
static int reading(uint8_t spare, uint16_t media, uint16_t controller)
{
    return cabinet_reading(record, sizeof record, area, sizeof area, BENCHS, spare, media, controller) == 0 && keep();
}

static int tick(void) { return cabinet_tick(record, sizeof record, area, sizeof area) == 0 && keep(); }

/* One call, with a line that says who called what and what came of it. 1 where the call was accepted. */
static int call(const char *host, uint64_t module, const char *name, uint64_t function, const uint8_t *request, size_t length)
{
    int32_t given = cabinet_call(record, sizeof record, area, sizeof area, module, MODULE_REVISION, function, request, length,
                                 answer, sizeof answer);

    printf("%-7s module %u %-13s ", host, (unsigned)module, name);
    if (given < 0) {
        printf("gives R%d: nothing was written\n", (int)-given);
        return 0;
    }
    if (!keep()) { /* and before that no host learns what came of it */
        printf("cannot be kept\n");
        return 0;
    }
    if (function == MODULE_MASK) { /* the one answer without a status */
        printf("accepted\n");
        return 1;
    }
    unsigned status = (unsigned)get(answer, 2), extended = (unsigned)get(answer + 2, 2);
    if (status == MODULE_ACCEPTED)
        printf("accepted\n");
    else
        printf("refused, status %u, extended %u\n", status, extended);
    return status == MODULE_ACCEPTED;
}

/* A request of Send: context, offset, length, then the piece. */
static int send(const char *host, uint32_t context, uint32_t offset, const uint8_t *piece, uint32_t length)
{
    uint8_t request[MODULE_SEND_HEAD + MODULE_PIECE_MOST];

    put(request, 4, context);
    put(request + 4, 4, offset);
    put(request + 8, 4, length);
    memcpy(request + MODULE_SEND_HEAD, piece, length);
    return call(host, BENCHS, "Send", MODULE_SEND, request, MODULE_SEND_HEAD + length);
}

static int start(const char *host, uint64_t module, uint32_t *context)
{
    int accepted = call(host, module, "Start", MODULE_START, nothing, 0);

    if (accepted)
        *context = (uint32_t)get(answer + 4, 4);
    return accepted;
}

static int finish(const char *host, uint32_t context)
{
    uint8_t request[8] = {0};

    put(request + 4, 4, context);
    return call(host, BENCHS, "Finish", MODULE_FINISH, request, sizeof request);
}

static int query(const char *host, uint32_t context)
{
    uint8_t request[4];

    put(request, 4, context);
    return call(host, BENCHS, "Query", MODULE_QUERY, request, sizeof request);
}

static void show_versions(void)
{
    if (call("bench", BENCHS, "Get FW Info", MODULE_GET_FW_INFO, nothing, 0))
        printf("        running version %u, staged version %u\n", (unsigned)get(answer + 28, 8), (unsigned)get(answer + 36, 8));
}

/* The media alarm on, with its threshold at 35 degrees, which is 560 sixteenths. */
static int set_media_alarm(void)
{
    uint8_t request[7] = {0};

    put(request, 2, 2);
    put(request + 3, 2, 560);
    return call("bench", BENCHS, "Set Threshold", MODULE_SET_THRESHOLD, request, sizeof request);
}

static double degrees(uint64_t word) { return (word & 0x8000 ? -1 : 1) * (double)(word & 0x7FFF) / 16; }

static void show_health(void)
{
    if (call("bench", BENCHS, "Get Health", MODULE_GET_HEALTH, nothing, 0))
        printf("        spare %u, media %.1f, controller %.1f, trips %u\n", answer[13], degrees(get(answer + 16, 2)),
               degrees(get(answer + 18, 2)), answer[15]);
}

/* The image of a payload, as the build room makes it. 1 where it is made. */
static int make_image(uint8_t image[IMAGE_SIZE])
{
    uint8_t payload[PAYLOAD_SIZE];

    memset(payload, 0x5A, sizeof payload);
    return image_make(VERSION, payload, sizeof payload, image, IMAGE_SIZE) == IMAGE_SIZE;
}

/* The bench sends the whole image; in between the laptop tries a piece of its own. */
static void send_image(uint32_t context, const uint8_t *image)
{
    for (uint32_t offset = 0; offset < IMAGE_SIZE; offset += MODULE_PIECE_MOST) {
        uint32_t left = IMAGE_SIZE - offset;

        send("bench", context, offset, image + offset, left < MODULE_PIECE_MOST ? left : MODULE_PIECE_MOST);
        if (offset == 0)
            send("laptop", context + 1, 0, image, MODULE_PIECE_MOST);
    }
}

int main(void)
{
    uint8_t image[IMAGE_SIZE];
    uint32_t context = 0, other = 0;

    if (!make_image(image))
        return 1;
    /* This cabinet is new at each start of the program. Yours is made once in its life; after that it only comes up again. */
    if (!make() || !power_up())
        return 1;
    show_versions();
    if (!set_media_alarm() || !reading(80, 640, 0x8018)) /* 40 degrees, and 1.5 below zero */
        return 1;
    show_health();

    if (!start("bench", BENCHS, &context))
        return 1;
    printf("        context %u\n", (unsigned)context);
    start("laptop", BENCHS, &other);
    start("laptop", LAPTOPS, &other);
    send_image(context, image);
    finish("bench", context);
    start("laptop", LAPTOPS, &other);

    query("bench", context);
    for (int i = 0; i < 8; i++)
        if (!tick())
            return 1;
    printf("        8 ticks\n");
    if (!query("bench", context))
        return 1;
    printf("        staged version %u\n", (unsigned)get(answer + 4, 8));
    start("laptop", BENCHS, &other);
    if (!start("laptop", LAPTOPS, &other))
        return 1;
    printf("        context %u\n", (unsigned)other);

    if (!power_up())
        return 1;
    printf("        power cycle: all but the slots was lost\n");
    show_versions();
    show_health();
    return 0;
}
