/* Power goes at every byte of whole updates of both modules, comes back, and the cabinet goes on.
 *
 *     torn
 *
 * The slots stand in memory that outlives power, and what the functions write reaches it byte by byte where the caller flushes.
 * Power goes before each of those bytes and before each flush returns, with the bytes of a flush in four orders; then all
 * other memory is lost, the record is read from its slots, and whole updates follow, cut once more on the way. No context may
 * be answered twice, by whichever module, no record be read but the one before the event that power cut or the one after it, and
 * no reading be lost that was kept. Then one module's record of before is taken over, and power goes at every byte of that.
 *
 * Five wrong ways to keep a record are cut in the same way, and each must be found out: else the cuts would show nothing. */
#include <stdio.h>
#include <string.h>

#include "../../include/module.h"
#include "../independent/bytes.h"

enum way {
    AS_THE_HEADER_SAYS,
    ONE_COPY,
    SELECTED_BEFORE_FLUSHED,
    SELECTOR_NOT_FLUSHED,
    ANSWERED_BEFORE_KEPT,
    WAYS,
    LAYOUT_BEFORE_SLOTS = WAYS /* of taking over a record of before */
};
static const char *const way_names[] = {"as module.h says",
                                        "one copy and no slots",
                                        "the slot selected before it is flushed",
                                        "the selector not flushed",
                                        "the host answered before the record is kept",
                                        "the layout's number before the slots are flushed"};

enum order { UP, DOWN, MIXED, EVEN_FIRST, ORDERS };

/* Contexts 511 and 512 are given to module 0 while power is cut: of a mixture of the two records, in which the low bytes of both
 * numbers are the new ones, 257 comes next, which was given before. Module 1 was given its last while there were fewer than that. */
enum { RECORDS = 5, IMAGE = RECORDS * 128, VERSION = 7, OF_MODULE_1 = 200, BEFORE_THE_CUTS = 510 };

/* ---- The two memories ---- */

enum { LAYOUT = MODULE_SLOTS_SIZE, MEMORY }; /* the slots, and beside them the number of the record's layout */

static uint8_t memory[MEMORY]; /* what outlives power */
static uint8_t slots[MEMORY];  /* the same bytes as the processor has them */
static uint8_t record[MODULE_RECORD_SIZE], area[MODULE_AREA_SIZE], answer[MODULE_ANSWER_LEAST];

static enum way way;
static enum order order;

static const uint32_t never = 0xFFFFFFFF;
static uint32_t points; /* so many points from now power goes */
static bool gone;       /* it has, and has not come back yet */

/* One of the points at which power may go. */
static bool powered(void)
{
    gone = points == 0;
    points -= !gone && points != never;
    return !gone;
}

static size_t nth(size_t i, size_t length)
{
    size_t even = (length + 1) / 2;

    switch (order) {
    case UP: return i;
    case DOWN: return length - 1 - i;
    case MIXED: return (37 * i + 11) % length;
    default: return i < even ? 2 * i : 2 * (i - even) + 1;
    }
}

/* True when the bytes are in memory. */
static bool flush(size_t at, size_t length)
{
    if (points == never || points > length) { /* no cut in it */
        memcpy(memory + at, slots + at, length);
        points -= points != never ? (uint32_t)length + 1 : 0;
        return true;
    }
    for (size_t i = 0; i < length; i++) {
        if (!powered())
            return false;
        size_t place = at + nth(i, length);
        memory[place] = slots[place];
    }
    return powered();
}

/* ---- Keeping a record ---- */

static uint8_t old[MODULE_RECORD_SIZE], new[MODULE_RECORD_SIZE]; /* what may be read, should power go */
static bool wrong;                                               /* nothing more is to be had of this update */
static uint64_t cuts, read_old, read_new, mixtures, twice, lost, unreadable;

static bool stop(void)
{
    wrong = true;
    return false;
}

static bool keep_one_copy(void)
{
    memcpy(slots + 1, record, sizeof record);
    return flush(1, sizeof record);
}

static bool keep_in_slots(void)
{
    int32_t slot = slots_write(slots, MODULE_SLOTS_SIZE, record, sizeof record);

    if (slot < 0)
        return stop();
    size_t at = 1 + (size_t)slot * MODULE_RECORD_SIZE;
    if (way != SELECTED_BEFORE_FLUSHED && !flush(at, MODULE_RECORD_SIZE))
        return false;
    if (slots_select(slots, MODULE_SLOTS_SIZE, (uint64_t)slot) != 0)
        return stop();
    if (way != SELECTOR_NOT_FLUSHED && !flush(0, 1))
        return false;
    return way != SELECTED_BEFORE_FLUSHED || flush(at, MODULE_RECORD_SIZE);
}

/* False where power went on the way. */
static bool keep(void)
{
    memcpy(new, record, sizeof record);
    if (!(way == ONE_COPY ? keep_one_copy() : keep_in_slots()))
        return false;
    memcpy(old, record, sizeof record);
    return true;
}

static int32_t read_record(void)
{
    if (way != ONE_COPY)
        return slots_read(slots, MODULE_SLOTS_SIZE, record, sizeof record);
    memcpy(record, slots + 1, sizeof record);
    return 0;
}

/* Which record was read, after power went in the middle of something. */
static void judge_read(void)
{
    if (memcmp(record, old, sizeof record) == 0)
        read_old += gone;
    else if (memcmp(record, new, sizeof record) == 0)
        read_new += gone;
    else
        mixtures++;
    gone = false;
}

/* ---- One module's record of before ---- */

/* Slots of one module, which nothing writes, as layout 4 has them: 257 bytes. */
enum { BEFORE_CABINET = 4, OLD_CONTEXTS = 77 };

static uint8_t old_slots[1 + 2 * MODULE_PART_SIZE];

/* Slot 1 is selected, and slot 0 holds something older. */
static void make_old_slots(void)
{
    uint8_t *at = old_slots + 1 + MODULE_PART_SIZE;

    old_slots[0] = 1;
    put32(at + 8, OLD_CONTEXTS);
    put64(at + 16, VERSION);
    memcpy(old_slots + 1, at, MODULE_PART_SIZE);
    put32(old_slots + 1 + 8, OLD_CONTEXTS - 1);
}

static bool put_layout(void)
{
    slots[LAYOUT] = MODULE_RECORD_LAYOUT;
    return flush(LAYOUT, 1);
}

static bool from_one_module(void)
{
    const uint8_t *kept = old_slots + 1 + old_slots[0] * MODULE_PART_SIZE;

    if (cabinet_adopt(kept, MODULE_PART_SIZE, record, sizeof record) != 0 || slots_fresh(slots, MODULE_SLOTS_SIZE) != 0)
        return stop();
    int32_t slot = slots_write(slots, MODULE_SLOTS_SIZE, record, sizeof record);
    if (slot < 0 || slots_select(slots, MODULE_SLOTS_SIZE, (uint64_t)slot) != 0)
        return stop();
    memcpy(old, record, sizeof record);
    memcpy(new, record, sizeof record);
    if (way == LAYOUT_BEFORE_SLOTS)
        return put_layout() && flush(0, MODULE_SLOTS_SIZE);
    return flush(0, MODULE_SLOTS_SIZE) && put_layout();
}

/* ---- Power ---- */

/* All but the memory that outlives power is lost; then power comes back to both modules. */
static bool power_up(void)
{
    memcpy(slots, memory, sizeof slots);
    memset(record, 0xEE, sizeof record);
    memset(area, 0xEE, sizeof area);
    memset(answer, 0xEE, sizeof answer);
    if (slots[LAYOUT] != MODULE_RECORD_LAYOUT && !from_one_module())
        return false;
    if (read_record() != 0) {
        unreadable++;
        return stop();
    }
    judge_read();
    memcpy(old, record, sizeof record);
    if (cabinet_power(record, sizeof record, area, sizeof area, 0) != 0 || cabinet_power(record, sizeof record, area, sizeof area, 1) != 0)
        return stop();
    return keep();
}

/* Power comes back to one module, and all memory is as it was. */
static bool power_one(uint64_t module)
{
    if (cabinet_power(record, sizeof record, area, sizeof area, module) != 0)
        return stop();
    return keep();
}

/* ---- A whole update ---- */

static uint8_t image[IMAGE];
static uint32_t answered; /* the last context that a host got */

static void make_image(void)
{
    for (uint32_t i = 0; i < RECORDS; i++) {
        uint8_t *at = image + 128 * i;
        uint32_t sum = 0;

        memset(at, 'a' + (int)i, 128);
        put16(at, (uint16_t)i);
        put16(at + 2, RECORDS);
        put64(at + 4, VERSION);
        for (int word = 0; word < 124; word += 4)
            sum += get32(at + word);
        put32(at + 124, sum);
    }
}

/* A context that reaches a host: it is over each one before. */
static bool answer_context(uint32_t context)
{
    if (context <= answered) {
        twice++;
        return stop();
    }
    answered = context;
    return true;
}

/* A call to a module that comes to this status. False where power went, or where something is wrong. */
static bool call(uint64_t module, uint64_t function, const uint8_t *request, size_t length, uint16_t status)
{
    bool started = function == MODULE_START && status == MODULE_ACCEPTED;

    if (cabinet_call(record, sizeof record, area, sizeof area, module, MODULE_REVISION, function, request, length, answer,
                     sizeof answer) < 0 || get16(answer) != status)
        return stop();
    if (started && way == ANSWERED_BEFORE_KEPT && !answer_context(get32(answer + 4)))
        return false;
    if (!keep())
        return false;
    return !started || way == ANSWERED_BEFORE_KEPT || answer_context(get32(answer + 4));
}

static bool start(uint64_t module) { return call(module, MODULE_START, image, 0, MODULE_ACCEPTED); }

static bool finish(uint64_t module, uint8_t flag)
{
    uint8_t request[8] = {flag};

    put32(request + 4, answered);
    return call(module, MODULE_FINISH, request, sizeof request, MODULE_ACCEPTED);
}

static bool send_image(uint64_t module)
{
    uint8_t request[MODULE_SEND_HEAD + MODULE_PIECE_MOST];

    for (uint32_t offset = 0; offset < IMAGE; offset += MODULE_PIECE_MOST) {
        uint32_t length = IMAGE - offset < MODULE_PIECE_MOST ? IMAGE - offset : MODULE_PIECE_MOST;

        put32(request, answered);
        put32(request + 4, offset);
        put32(request + 8, length);
        memcpy(request + MODULE_SEND_HEAD, image + offset, length);
        if (!call(module, MODULE_SEND, request, MODULE_SEND_HEAD + length, MODULE_ACCEPTED))
            return false;
    }
    return true;
}

static bool verify(void)
{
    for (int tick = 0; tick < 8; tick++) {
        if (cabinet_tick(record, sizeof record, area, sizeof area) != 0)
            return stop();
        if (!keep())
            return false;
    }
    return true;
}

/* A health reading, another one in each transfer. */
static uint8_t spare(void) { return (uint8_t)(answered % 101); }

static bool read_sensors(uint64_t module)
{
    if (cabinet_reading(record, sizeof record, area, sizeof area, module, spare(), 640, 0x8018) != 0)
        return stop();
    return keep();
}

/* The version that Query or Get FW Info has told. */
static bool told(int at) { return get64(answer + at) == VERSION || stop(); }

/* Function 1 tells the reading that was kept before the power cycle. */
static bool told_reading(uint64_t module)
{
    if (!call(module, MODULE_GET_HEALTH, image, 0, MODULE_ACCEPTED))
        return false;
    lost += answer[13] != spare() || get16(answer + 16) != 640 || get16(answer + 18) != 0x8018;
    return true;
}

/* A whole update of a module, while the other is refused the area, and loses its power in between. */
static bool transfer(uint64_t module)
{
    uint64_t other = 1 - module;
    uint8_t context[4];

    if (!start(module) || !call(module, MODULE_START, image, 0, MODULE_OUT_OF_TURN)
        || !call(other, MODULE_START, image, 0, MODULE_NO_CONTEXT) || !power_one(other) || !send_image(module) || !finish(module, 0) || !verify())
        return false;
    put32(context, answered);
    return call(module, MODULE_QUERY, context, sizeof context, MODULE_ACCEPTED) && told(4) && read_sensors(module) && power_up()
        && call(module, MODULE_GET_FW_INFO, image, 0, MODULE_ACCEPTED) && told(28)
        && told_reading(module) && read_sensors(module);
}

/* Of module 0 twice, so that power goes in one that follows another; then of module 1. */
static bool update(void) { return transfer(0) && transfer(0) && transfer(1); }

/* ---- Cuts ---- */

static uint8_t begun[MEMORY]; /* the memory of a cabinet that has answered BEFORE_THE_CUTS contexts */

static bool begin(void)
{
    points = never;
    answered = 0;
    wrong = false;
    memset(memory, 0xEE, sizeof memory);
    if (slots_fresh(slots, MODULE_SLOTS_SIZE) != 0 || !flush(0, MODULE_SLOTS_SIZE) || !put_layout()
        || cabinet_fresh(old, sizeof old) != 0 || !power_up())
        return false;
    while (answered < BEFORE_THE_CUTS) {
        uint64_t module = answered < OF_MODULE_1;
        if (!start(module) || !finish(module, 1))
            return false;
    }
    memcpy(begun, memory, sizeof begun);
    return true;
}

/* An update that is cut so many points on, and once more as the cabinet goes on. False where it is over before the cut. */
static bool cut_at(uint32_t cut)
{
    memcpy(memory, begun, sizeof memory);
    memcpy(old, begun + 1 + (way == ONE_COPY ? 0 : begun[0] * MODULE_RECORD_SIZE), sizeof old);
    memcpy(new, old, sizeof new);
    answered = BEFORE_THE_CUTS;
    wrong = false;
    points = cut;
    if (power_up() && update())
        return false;
    cuts++;
    points = 7919 * cut % 5003;
    while (!wrong && !(power_up() && update())) {
        cuts += !wrong;
        points = never;
    }
    return true;
}

/* The same of a record that is taken over, up to the first contexts of each module. */
static bool cut_takeover_at(uint32_t cut)
{
    memset(memory, 0xEE, sizeof memory);
    memory[LAYOUT] = BEFORE_CABINET;
    answered = OLD_CONTEXTS;
    wrong = false;
    points = cut;
    if (power_up() && start(0) && finish(0, 1) && start(1))
        return false;
    cuts++;
    points = cut / 2;
    while (!wrong && !(power_up() && start(0) && finish(0, 1) && start(1))) {
        cuts += !wrong;
        points = never;
    }
    return true;
}

/* Every cut, in each order. False where something was refused or told that must not be, before any mixture could be why. */
static bool cut_all(bool (*one)(uint32_t cut))
{
    cuts = read_old = read_new = mixtures = twice = lost = unreadable = 0;
    for (order = UP; order < ORDERS; order++)
        for (uint32_t cut = 0; one(cut); cut++)
            if (wrong && mixtures + twice + unreadable == 0) {
                printf("cut %u, order %d: a wrong answer\n", (unsigned)cut, (int)order);
                return false;
            }
    return read_old > 0 && read_new > 0;
}

static bool as_it_must_be(void)
{
    switch (way) {
    case AS_THE_HEADER_SAYS: return mixtures == 0 && twice == 0 && lost == 0 && unreadable == 0;
    case ANSWERED_BEFORE_KEPT: return mixtures == 0 && twice > 0;
    case LAYOUT_BEFORE_SLOTS: return unreadable > 0;
    default: return mixtures > 0 && twice > 0;
    }
}

static bool cut_way(const char *what, bool (*one)(uint32_t cut))
{
    bool right = cut_all(one) && as_it_must_be();

    printf("%s%s: %llu cuts; read: old record %llu, new record %llu, mixture %llu, none %llu; contexts given twice %llu; "
           "readings lost %llu\n",
           what, way_names[way], (unsigned long long)cuts, (unsigned long long)read_old, (unsigned long long)read_new,
           (unsigned long long)mixtures, (unsigned long long)unreadable, (unsigned long long)twice, (unsigned long long)lost);
    if (!right)
        printf("%s%s: not as it must be\n", what, way_names[way]);
    return right;
}

int main(void)
{
    make_image();
    make_old_slots();
    for (way = AS_THE_HEADER_SAYS; way < WAYS; way++) {
        if (!begin())
            return 2;
        if (!cut_way("", cut_at))
            return 1;
    }
    way = AS_THE_HEADER_SAYS;
    if (!cut_way("from one module, ", cut_takeover_at))
        return 1;
    way = LAYOUT_BEFORE_SLOTS;
    if (!cut_way("from one module, ", cut_takeover_at))
        return 1;
    return 0;
}
