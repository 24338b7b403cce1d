/* The modules' rules, in the order of document 01, with health readings after the thresholds. What
 * one module shares with the other is in Start alone. */
#include "module.h"

#include "image.h"

/* An answer's first four bytes as one number: status, then extended number. */
enum {
    DONE = 0,
    NOT_SERVED = 1,
    INVALID = 3,
    UNKNOWN = 6,
    AREA_BUSY = 8,
    CONTEXTS_USED_UP = 8,
    WRONG_STATE = 10,
    WRONG_PASSPHRASE = 11
};
#define SPECIFIC(extended) (7u | (uint32_t)(extended) << 16)

enum {
    GET_HEALTH = 1,
    GET_THRESHOLD = 2,
    GET_FW_INFO = 12,
    START = 13,
    SEND = 14,
    FINISH = 15,
    QUERY = 16,
    SET_THRESHOLD = 17,
    GET_SECURITY = 19,
    SET_PASSPHRASE = 20,
    DISABLE = 21,
    UNLOCK = 22,
    FREEZE = 23
};

enum { SEND_HEAD = 12 };

/* ---- The device record ---- */

void modules_fresh(struct cabinet *cabinet)
{
    memset(cabinet, 0, sizeof *cabinet);
    for (int i = 0; i < MODULES; i++) {
        cabinet->modules[i].phase = IDLE;
        cabinet->modules[i].running = 1;
    }
}

/* What a temperature word stands for, in sixteenths of a degree: sign in bit 15, and 0 has two. */
static int32_t sixteenths(uint16_t word)
{
    int32_t size = word & 0x7FFF;

    return (word & 0x8000) != 0 ? -size : size;
}

uint8_t device_trips(const struct device *device)
{
    unsigned spare = device->read_spare < device->spare;
    unsigned media = sixteenths(device->read_media) > sixteenths(device->media);
    unsigned controller = sixteenths(device->read_controller) > sixteenths(device->controller);

    return (uint8_t)((spare | media << 1 | controller << 2) & device->enable);
}

bool device_possible(const struct device *device, uint32_t contexts)
{
    if (device->phase > FAILED || device->enabled > 1 || device->locked > 1 || device->frozen > 1)
        return false;
    if (device->current > contexts || (device->phase != IDLE && device->current < 1))
        return false;
    if (device->received > AREA_BYTES || (device->phase == IDLE && device->received != 0))
        return false;
    if (device->phase == VERIFYING && (device->ticks < 1 || device->ticks > VERIFY_TICKS))
        return false;
    if (device->phase != VERIFYING && device->ticks != 0)
        return false;
    if (device->phase != STAGED && device->staged != 0)
        return false;
    if (device->phase == FAILED && (device->fault < SIZE_FAULT || device->fault > SUM_FAULT))
        return false;
    if (device->phase == FAILED && device->fault_record >= IMAGE_RECORDS_MOST)
        return false;
    if (device->phase != FAILED && (device->fault != NO_FAULT || device->fault_record != 0))
        return false;
    if (device->locked && !device->enabled)
        return false;
    if (!device->enabled && !all_zero(device->passphrase, PASSPHRASE_BYTES))
        return false;
    return device->attempts <= WRONG_MOST && device->enable <= ENABLE_ALL
        && device->spare <= SPARE_MOST && device->read_spare <= SPARE_MOST
        && device->trips == device_trips(device);
}

/* Whether the area is this module's for now. */
static bool has_area(const struct device *device)
{
    return device->phase == RECEIVING || device->phase == VERIFYING;
}

bool modules_possible(const struct cabinet *cabinet)
{
    return device_possible(&cabinet->modules[0], cabinet->contexts)
        && device_possible(&cabinet->modules[1], cabinet->contexts)
        && !(has_area(&cabinet->modules[0]) && has_area(&cabinet->modules[1]));
}

/* The current context is live in every phase but Idle. */
static bool live(const struct device *device, uint32_t context)
{
    return device->phase != IDLE && context == device->current;
}

/* ---- Which function index at which revision ---- */

/* Function 0's mask: bit k for function k. */
static uint32_t served_mask(uint64_t revision)
{
    switch (revision) {
    case 1: return 0x00000007;
    case 2: return 0x00FBF007;
    default: return 0;
    }
}

static bool served(uint64_t revision, uint64_t function)
{
    return function < 32 && (served_mask(revision) >> function & 1) != 0;
}

/* Request bytes of a served function; for Send the least. */
static size_t request_bytes(uint64_t function)
{
    switch (function) {
    case SEND: return SEND_HEAD;
    case FINISH: return 8;
    case QUERY: return 4;
    case SET_THRESHOLD: return 7;
    case SET_PASSPHRASE: return 2 * PASSPHRASE_BYTES;
    case DISABLE: return PASSPHRASE_BYTES;
    case UNLOCK: return PASSPHRASE_BYTES;
    default: return 0;
    }
}

static int32_t answer_bytes(uint64_t function)
{
    switch (function) {
    case GET_HEALTH: return 132;
    case GET_THRESHOLD: return 12;
    case GET_FW_INFO: return 44;
    case START: return 8;
    case QUERY: return 12;
    case GET_SECURITY: return 12;
    default: return 4;
    }
}

/* ---- Thresholds ---- */

static uint32_t get_threshold(const struct device *device, uint8_t *answer)
{
    put16(answer + 4, device->enable);
    answer[6] = device->spare;
    put16(answer + 7, device->media);
    put16(answer + 9, device->controller);
    return DONE;
}

static uint32_t set_threshold(struct device *device, const uint8_t *request)
{
    uint16_t enable = get16(request);

    if (enable > ENABLE_ALL) /* reserved bits */
        return INVALID;
    if (request[2] > SPARE_MOST)
        return INVALID;
    device->enable = enable;
    device->spare = request[2];
    device->media = get16(request + 3);
    device->controller = get16(request + 5);
    device->trips = device_trips(device);
    return DONE;
}

/* ---- Health readings ---- */

/* Table 3-2 of the V1.6 paper, of which only these fields are marked valid. */
static uint32_t get_health(const struct device *device, uint8_t *answer)
{
    put32(answer + 4, 1u << 1 | 1u << 3 | 1u << 4 | 1u << 9); /* spare, temperatures, trips */
    answer[13] = device->read_spare;
    answer[15] = device->trips;
    put16(answer + 16, device->read_media);
    put16(answer + 18, device->read_controller);
    return DONE;
}

int32_t modules_reading(struct cabinet *cabinet, const uint8_t *area, size_t area_len,
                        uint64_t module, uint8_t spare, uint16_t media, uint16_t controller)
{
    (void)area;
    if (area_len != AREA_BYTES)
        return R2;
    if (module >= MODULES)
        return R5;
    if (!modules_possible(cabinet))
        return R3;
    if (spare > SPARE_MOST)
        return R4;
    struct device *device = &cabinet->modules[module];
    device->read_spare = spare;
    device->read_media = media;
    device->read_controller = controller;
    device->trips = device_trips(device);
    return 0;
}

/* ---- A firmware transfer ---- */

static uint32_t get_fw_info(const struct device *device, uint8_t *answer)
{
    put32(answer + 4, AREA_BYTES);
    put32(answer + 8, PIECE_MOST);
    put32(answer + 12, TICK_MICROSECONDS);
    put32(answer + 16, VERIFY_TICKS * TICK_MICROSECONDS);
    put32(answer + 20, 0); /* capability 0, three reserved bytes */
    put32(answer + 24, 1); /* interface version */
    put64(answer + 28, device->running);
    put64(answer + 36, device->staged);
    return DONE;
}

/* The one step of a module that looks at the other, and at what the two share. */
static uint32_t start(struct cabinet *cabinet, uint64_t module, uint8_t *answer)
{
    struct device *device = &cabinet->modules[module];

    if (has_area(device))
        return SPECIFIC(1);
    if (device->phase == STAGED)
        return SPECIFIC(2);
    if (has_area(&cabinet->modules[1 - module]))
        return AREA_BUSY;
    if (cabinet->contexts == 4294967295u)
        return CONTEXTS_USED_UP;
    cabinet->contexts++;
    device->current = cabinet->contexts;
    device->received = 0;
    device->phase = RECEIVING;
    device->fault = NO_FAULT;
    device->fault_record = 0;
    put32(answer + 4, device->current);
    return DONE;
}

/* The request holds at least the 12 bytes before the piece. */
static uint32_t send(struct device *device, uint8_t *area, const uint8_t *request,
                     size_t request_len)
{
    uint32_t context = get32(request);
    uint64_t offset = get32(request + 4);
    uint64_t length = get32(request + 8);

    if (length != request_len - SEND_HEAD || length == 0 || length > PIECE_MOST
        || offset + length > AREA_BYTES)
        return INVALID;
    if (device->phase != RECEIVING || !live(device, context))
        return SPECIFIC(1);
    if (offset != device->received)
        return INVALID;
    memcpy(area + offset, request + SEND_HEAD, length);
    device->received += (uint32_t)length;
    return DONE;
}

static uint32_t finish(struct device *device, const uint8_t *request)
{
    uint8_t flag = request[0];

    if (!all_zero(request + 1, 3)) /* reserved bytes */
        return INVALID;
    if (flag > 1)
        return INVALID;
    if (!live(device, get32(request + 4)))
        return SPECIFIC(1);
    if (device->phase != RECEIVING)
        return SPECIFIC(2);
    if (flag == 0) {
        device->phase = VERIFYING;
        device->ticks = VERIFY_TICKS;
    } else {
        device->phase = IDLE;
        device->received = 0;
    }
    return DONE;
}

static uint32_t query(const struct device *device, const uint8_t *request, uint8_t *answer)
{
    if (!live(device, get32(request)))
        return SPECIFIC(1);
    switch (device->phase) {
    case RECEIVING: return SPECIFIC(4);
    case VERIFYING: return SPECIFIC(2);
    case FAILED: return SPECIFIC(3);
    }
    if (device->staged == 0)
        return UNKNOWN;
    put64(answer + 4, device->staged);
    return DONE;
}

/* Whether this is record `number` of an image of `count` records of this version. Which of the
 * tests comes first is no matter here. */
static bool good_record(const uint8_t *record, size_t number, size_t count, uint64_t version)
{
    return get32(record + SUM_AT) == word_sum(record) && get16(record + NUMBER_AT) == number
        && get16(record + COUNT_AT) == count && get64(record + VERSION_AT) == version;
}

/* The first fault of such a record that is not good, or whose version is 0. */
static enum fault record_fault(const uint8_t *record, size_t number, size_t count,
                               uint64_t version)
{
    if (get16(record + NUMBER_AT) != number)
        return NUMBER_FAULT;
    if (get16(record + COUNT_AT) != count)
        return COUNT_FAULT;
    if (get64(record + VERSION_AT) != version || version == 0)
        return VERSION_FAULT;
    return SUM_FAULT;
}

struct image_check image_check(const uint8_t *image, size_t length)
{
    struct image_check check = {0, SIZE_FAULT, 0};
    size_t count = length / IMAGE_RECORD;
    size_t good = 0; /* records */

    if (length % IMAGE_RECORD != 0 || count < 1 || count > IMAGE_RECORDS_MOST)
        return check;
    uint64_t version = get64(image + VERSION_AT);
    if (version != 0) /* else record 0 has a fault */
        while (good < count && good_record(image + good * IMAGE_RECORD, good, count, version))
            good++;
    if (good == count) {
        check.fault = NO_FAULT;
        check.version = version;
    } else {
        check.fault = record_fault(image + good * IMAGE_RECORD, good, count, version);
        check.record = (uint8_t)good;
    }
    return check;
}

static void tick(struct device *device, const uint8_t *area)
{
    if (device->phase != VERIFYING)
        return;
    device->ticks--;
    if (device->ticks == 0) {
        struct image_check check = image_check(area, device->received);
        device->phase = check.fault == NO_FAULT ? STAGED : FAILED;
        device->staged = check.version;
        device->fault = check.fault;
        device->fault_record = check.record;
    }
}

int32_t modules_tick(struct cabinet *cabinet, const uint8_t *area, size_t area_len)
{
    if (area_len != AREA_BYTES)
        return R2;
    if (!modules_possible(cabinet))
        return R3;
    tick(&cabinet->modules[0], area);
    tick(&cabinet->modules[1], area);
    return 0;
}

int32_t modules_power(struct cabinet *cabinet, const uint8_t *area, size_t area_len,
                      uint64_t module)
{
    (void)area;
    if (area_len != AREA_BYTES)
        return R2;
    if (module >= MODULES)
        return R5;
    if (!modules_possible(cabinet))
        return R3;
    struct device *device = &cabinet->modules[module];
    if (device->phase == STAGED)
        device->running = device->staged;
    device->phase = IDLE;
    device->received = 0;
    device->ticks = 0;
    device->staged = 0;
    device->fault = NO_FAULT;
    device->fault_record = 0;
    device->frozen = 0;
    device->attempts = 0;
    device->locked = device->enabled;
    return 0;
}

/* ---- Locking and passphrases ---- */

static uint32_t get_security(const struct device *device, uint8_t *answer)
{
    answer[8] = (uint8_t)(device->enabled << 1 | device->locked << 2 | device->frozen << 3
                          | (device->attempts == WRONG_MOST) << 4);
    return DONE;
}

/* Frozen, or at the limit: 20 to 23 are refused before anything else. */
static bool shut(const struct device *device)
{
    return device->frozen || device->attempts == WRONG_MOST;
}

static bool matches(const struct device *device, const uint8_t *passphrase)
{
    return memcmp(device->passphrase, passphrase, PASSPHRASE_BYTES) == 0;
}

static uint32_t wrong_passphrase(struct device *device)
{
    device->attempts++;
    return WRONG_PASSPHRASE;
}

static uint32_t set_passphrase(struct device *device, const uint8_t *request)
{
    if (shut(device) || device->locked)
        return WRONG_STATE;
    if (device->enabled && !matches(device, request))
        return wrong_passphrase(device);
    memcpy(device->passphrase, request + PASSPHRASE_BYTES, PASSPHRASE_BYTES);
    device->enabled = 1;
    device->attempts = 0;
    return DONE;
}

static uint32_t disable(struct device *device, const uint8_t *request)
{
    if (shut(device) || !device->enabled || device->locked)
        return WRONG_STATE;
    if (!matches(device, request))
        return wrong_passphrase(device);
    device->enabled = 0;
    memset(device->passphrase, 0, PASSPHRASE_BYTES);
    device->attempts = 0;
    return DONE;
}

static uint32_t unlock(struct device *device, const uint8_t *request)
{
    if (shut(device) || !device->enabled || !device->locked)
        return WRONG_STATE;
    if (!matches(device, request))
        return wrong_passphrase(device);
    device->locked = 0;
    device->attempts = 0;
    return DONE;
}

static uint32_t freeze(struct device *device)
{
    if (shut(device))
        return WRONG_STATE;
    device->frozen = 1;
    return DONE;
}

/* ---- A call ---- */

/* A served function with a request of the right length; the answer's bytes are zero. */
static uint32_t serve(struct cabinet *cabinet, uint64_t module, uint8_t *area, uint64_t function,
                      const uint8_t *request, size_t request_len, uint8_t *answer)
{
    struct device *device = &cabinet->modules[module];

    switch (function) {
    case GET_HEALTH: return get_health(device, answer);
    case GET_THRESHOLD: return get_threshold(device, answer);
    case GET_FW_INFO: return get_fw_info(device, answer);
    case START: return start(cabinet, module, answer);
    case SEND: return send(device, area, request, request_len);
    case FINISH: return finish(device, request);
    case QUERY: return query(device, request, answer);
    case SET_THRESHOLD: return set_threshold(device, request);
    case GET_SECURITY: return get_security(device, answer);
    case SET_PASSPHRASE: return set_passphrase(device, request);
    case DISABLE: return disable(device, request);
    case UNLOCK: return unlock(device, request);
    default: return freeze(device);
    }
}

int32_t modules_call(struct cabinet *cabinet, uint8_t *area, size_t area_len, uint64_t module,
                     uint64_t revision, uint64_t function, const uint8_t *request,
                     size_t request_len, uint8_t *answer, size_t answer_len)
{
    if (answer_len < ANSWER_LEAST)
        return R1;
    if (area_len != AREA_BYTES)
        return R2;
    if (module >= MODULES)
        return R5;
    if (!modules_possible(cabinet))
        return R3;
    if (function == 0) {
        put32(answer, served_mask(revision));
        return 4;
    }
    if (!served(revision, function)) {
        put32(answer, NOT_SERVED);
        return 4;
    }
    int32_t length = answer_bytes(function);
    size_t least = request_bytes(function);
    bool fits = function == SEND ? request_len >= least : request_len == least;
    memset(answer, 0, (size_t)length);
    put32(answer, fits ? serve(cabinet, module, area, function, request, request_len, answer)
                       : INVALID);
    return length;
}
