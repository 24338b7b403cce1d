/* Random calls from C: the proved library and the independent model, side by side in one process.
 *
 *     random SEED COUNT
 *
 * Each turn takes a record of both modules, one module's from before, an area, a request, an answer buffer and slots, gives both
 * sides their own copies of the same bytes and the same module, and compares what they answer and every byte afterwards, guards
 * included. The first difference is printed, and the exit status is then 1; so it is where a run of LONG turns or more never
 * reached what such a run must. */
#include <stdio.h>
#include <stdlib.h>
#include <string.h>

#include "../../include/module.h"
#include "../independent/slots.h"

/* ---- Random numbers ---- */

static uint64_t state;

static uint64_t next(void)
{
    uint64_t z = state += 0x9E3779B97F4A7C15u;

    z = (z ^ z >> 30) * 0xBF58476D1CE4E5B9u;
    z = (z ^ z >> 27) * 0x94D049BB133111EBu;
    return z ^ z >> 31;
}

static uint64_t below(uint64_t most) { return next() % most; }
static bool percent(unsigned chance) { return below(100) < chance; }

static void fill(uint8_t *at, size_t length)
{
    for (size_t i = 0; i < length; i++)
        at[i] = (uint8_t)next();
}

/* ---- Buffers with guards ---- */

enum { GUARD = 64, ROOM = MODULE_AREA_SIZE + 64, SIDES = 2 };

/* One buffer as both sides have it: the same bytes, guards before and behind, and a place that need not be aligned. */
struct buffer {
    const char *name;
    uint8_t was[GUARD + ROOM + GUARD];
    uint8_t side[SIDES][GUARD + ROOM + GUARD];
    size_t at, length;
};

static struct buffer record = {.name = "record"}, area = {.name = "area"}, request = {.name = "request"},
                     answer = {.name = "answer"}, slots = {.name = "slots"}, old = {.name = "old record"};
static struct buffer *const buffers[] = {&record, &area, &request, &answer, &slots, &old};
enum { BUFFERS = sizeof buffers / sizeof *buffers };

static uint8_t *mine(struct buffer *buffer) { return buffer->was + buffer->at; }
static uint8_t *lent(struct buffer *buffer, int side) { return buffer->side[side] + buffer->at; }
static size_t whole(const struct buffer *buffer) { return buffer->at + buffer->length + GUARD; }

/* A buffer of a length, all its bytes and its guards random. */
static void renew(struct buffer *buffer, size_t length)
{
    buffer->at = GUARD - below(16);
    buffer->length = length;
    fill(buffer->was, whole(buffer));
}

static void lend(struct buffer *buffer)
{
    for (int side = 0; side < SIDES; side++)
        memcpy(buffer->side[side], buffer->was, whole(buffer));
}

/* ---- Records ---- */

static void put(uint8_t *at, int width, uint64_t number)
{
    for (int i = 0; i < width; i++)
        at[i] = (uint8_t)(number >> 8 * i);
}

static bool good_image;

/* Wrong: a byte anywhere, which is most often payload, or one of a record's fields. */
static void spoil_image(uint32_t count)
{
    static const uint8_t fields[] = {0, 1, 2, 3, 4, 11, 124, 127};
    size_t at = percent(50) ? below(128 * count) : 128 * below(count) + fields[below(sizeof fields)];

    mine(&area)[at] ^= (uint8_t)(1 << below(8));
}

/* A good image of some records at the front of the area, now and then with a byte wrong, or two. */
static uint32_t make_image(void)
{
    uint32_t count = percent(30) ? 128 : 1 + (uint32_t)below(128);
    uint64_t version = percent(5) ? 0 : next();

    for (uint32_t i = 0; i < count; i++) {
        uint8_t *at = mine(&area) + 128 * i;
        uint32_t sum = 0;

        put(at, 2, i);
        put(at + 2, 2, count);
        put(at + 4, 8, version);
        for (int word = 0; word < 124; word += 4)
            sum += get32(at + word);
        put(at + 124, 4, sum);
    }
    for (int wrong = percent(25) ? 1 + (int)below(2) : 0; wrong > 0; wrong--)
        spoil_image(count);
    good_image = true;
    return 128 * count;
}

/* ---- Temperatures ---- */

/* A word, most often near another: the same, of the other sign, one off, nothing of either sign, the ends; else any. */
static uint16_t word_near(uint16_t other)
{
    switch (below(10)) {
    case 0: return 0x0000;
    case 1: return 0x8000;
    case 2: return other;
    case 3: return other ^ 0x8000;
    case 4: return (uint16_t)(other + 1);
    case 5: return (uint16_t)(other - 1);
    case 6: return percent(50) ? 0x7FFF : 0xFFFF;
    default: return (uint16_t)next();
    }
}

/* A spare of 0 to 100, most often near another. */
static uint8_t spare_near(uint8_t other)
{
    uint64_t near = other + below(3);

    return (uint8_t)(percent(40) || near == 0 || near > 101 ? below(101) : near - 1);
}

/* The module that the turn names, if there is one; else module 0. */
static unsigned named;

static uint8_t *part(struct buffer *buffer, unsigned module) { return mine(buffer) + device_at(module); }
static bool is_whole(void) { return record.length == RECORD_BYTES; }

/* What is in that module's part of the record now, be it a threshold or a reading. */
static uint8_t byte_kept(size_t at) { return is_whole() ? part(&record, named)[at] : 0; }
static uint16_t word_kept(size_t at) { return is_whole() ? get16(part(&record, named) + at) : 0; }
static uint32_t number_kept(unsigned module, size_t at) { return is_whole() ? get32(part(&record, module) + at) : 0; }

static bool has_area(uint8_t phase) { return phase == RECEIVING || phase == VERIFYING; }

/* A module that is possible in a cabinet that has given out so many contexts, in this phase. */
static struct device possible_device(uint8_t phase, uint32_t contexts)
{
    struct device device = {0};

    device.phase = phase;
    device.current = percent(60) || contexts == 0 ? contexts : 1 + (uint32_t)below(contexts);
    if (phase == IDLE && percent(30))
        device.current = 0;
    if (phase != IDLE)
        device.received = percent(30) ? 0 : percent(30) ? 16384 - (uint32_t)below(600) : (uint32_t)below(16385);
    if (phase == VERIFYING)
        device.ticks = percent(50) ? 1 : (uint8_t)(1 + below(8));
    if (phase == VERIFYING && area.length == MODULE_AREA_SIZE && percent(20))
        device.received = make_image();
    device.running = next() >> below(64);
    if (phase == STAGED)
        device.staged = percent(10) ? 0 : next() >> below(64);
    if (phase == FAILED) {
        device.fault = (uint8_t)(SIZE_FAULT + below(SUM_FAULT));
        device.fault_record = (uint8_t)(percent(30) ? 127 : below(128));
    }
    device.enable = (uint16_t)below(8);
    device.spare = (uint8_t)below(101);
    device.media = word_near(0);
    device.controller = word_near(0);
    device.read_spare = spare_near(device.spare);
    device.read_media = word_near(device.media);
    device.read_controller = word_near(device.controller);
    device.trips = device_trips(&device);
    device.enabled = percent(70);
    device.locked = device.enabled && percent(40);
    device.frozen = percent(15);
    device.attempts = percent(60) ? (uint8_t)below(3) : (uint8_t)(8 + below(3));
    if (device.enabled)
        fill(device.passphrase, sizeof device.passphrase);
    return device;
}

/* A record whose modules are possible, each for itself, in these phases. */
static void make_record(uint8_t one, uint8_t other)
{
    struct cabinet cabinet;

    cabinet.contexts = percent(14) ? 4294967295u - (uint32_t)below(2) : 1 + (uint32_t)below(4);
    if (one == IDLE && other == IDLE && percent(30))
        cabinet.contexts = 0;
    cabinet.modules[0] = possible_device(one, cabinet.contexts);
    cabinet.modules[1] = possible_device(other, cabinet.contexts);
    renew(&record, RECORD_BYTES);
    record_encode(&cabinet, mine(&record));
}

/* A possible record: one module at most has the area. */
static void possible_record(void)
{
    static const uint8_t without[] = {IDLE, STAGED, FAILED};
    uint8_t phases[MODULES] = {(uint8_t)below(5), (uint8_t)below(5)};

    if (has_area(phases[0]) && has_area(phases[1]))
        phases[below(MODULES)] = without[below(3)];
    make_record(phases[0], phases[1]);
}

/* What a record can have wrong: a module's fault, its reading, its trips byte and its current context, and what is of both. */
enum bad_field {
    NOTHING,
    NO_REASON,
    REASON_6,
    RECORD_128,
    REASON_ELSEWHERE,
    RECORD_ELSEWHERE,
    SPARE_OVER_100,
    WRONG_TRIPS,
    CURRENT_OVER,
    NO_CURRENT,
    OF_BOTH, /* the first that is no one module's */
    BOTH_HAVE_AREA = OF_BOTH,
    HEAD_NOT_ZERO,
    BAD_FIELDS
};

static enum bad_field bad_field;
static unsigned spoiled; /* the module whose part is wrong */

static void spoil_fault(uint8_t *at)
{
    bad_field = at[0] == FAILED ? NO_REASON + below(3) : REASON_ELSEWHERE + below(2);
    switch (bad_field) {
    case NO_REASON: at[38] = 0, at[39] = percent(50) ? 0 : at[39]; break;
    case REASON_6: at[38] = 6; break;
    case RECORD_128: at[39] = 128; break;
    case REASON_ELSEWHERE: at[38] = (uint8_t)(1 + below(5)); break;
    default: at[39] = (uint8_t)(1 + below(127)); break;
    }
}

static void spoil_reading(uint8_t *at)
{
    bad_field = SPARE_OVER_100;
    at[40] = (uint8_t)(percent(50) ? 101 : 101 + below(155));
}

/* Another byte, most often by one of its three bits. */
static void spoil_trips(uint8_t *at)
{
    bad_field = WRONG_TRIPS;
    at[41] ^= (uint8_t)(1 << (percent(75) ? below(3) : below(8)));
}

/* A current context that the cabinet has not given out, by one most often; or outside Idle none. */
static void spoil_current(uint8_t *at)
{
    uint32_t contexts = get32(mine(&record)), current = get32(at + 8);

    if (at[0] != IDLE && percent(40)) {
        bad_field = NO_CURRENT;
        put(at + 8, 4, 0);
    } else if (current > 0 && percent(50)) {
        bad_field = CURRENT_OVER;
        put(mine(&record), 4, percent(80) ? current - 1 : below(current));
    } else if (contexts < 4294967295u) {
        bad_field = CURRENT_OVER;
        put(at + 8, 4, percent(80) ? contexts + 1 : contexts + 1 + below(4294967295u - contexts));
    }
}

/* What is of both modules: both have the area, or a byte between the contexts and the first of them. */
static void spoil_cabinet(void)
{
    if (percent(50)) {
        make_record(RECEIVING + (uint8_t)below(2), RECEIVING + (uint8_t)below(2));
        bad_field = BOTH_HAVE_AREA;
    } else {
        mine(&record)[4 + below(HEAD_BYTES - 4)] ^= (uint8_t)(1 << below(8));
        bad_field = HEAD_NOT_ZERO;
    }
}

/* A module's part with something wrong, or nearly. */
static void spoil_part(uint8_t *at)
{
    switch (below(9)) {
    case 0: at[below(DEVICE_BYTES)] ^= (uint8_t)(1 << below(8)); break;
    case 1: at[below(6)] = (uint8_t)below(12); break;
    case 2: at[below(46)] = (uint8_t)next(); break;
    case 3: at[percent(50) ? 33 : percent(50) ? 46 + below(18) : 96 + below(32)] = (uint8_t)next(); break;
    case 4: put(at + 12, 4, 16384 + below(3)); break;
    case 5: spoil_fault(at); break;
    case 6: spoil_reading(at); break;
    case 7: spoil_trips(at); break;
    case 8: put(at + 24, 8, 1 + below(2)); break;
    }
}

static void spoil_record(void)
{
    spoiled = (unsigned)below(MODULES);
    if (percent(15))
        spoil_cabinet();
    else if (percent(20))
        spoil_current(part(&record, spoiled));
    else
        spoil_part(part(&record, spoiled));
}

/* A module's record that an older library may have kept: a possible one; or before the trips byte one without it, before the reading
 * without that either, and first of all no fault in Failed. Now and then something is wrong with it, or it has a reading all the same,
 * or it is a part of the record that is there. */
static void old_record(void)
{
    uint8_t whole_record[RECORD_BYTES];
    struct cabinet cabinet = {.contexts = percent(10) ? 4294967295u : 1 + (uint32_t)below(300)};

    cabinet.modules[0] = possible_device((uint8_t)below(5), cabinet.contexts);
    cabinet.modules[1] = cabinet.modules[0];
    record_encode(&cabinet, whole_record);
    renew(&old, DEVICE_BYTES);
    memcpy(mine(&old), percent(90) || !is_whole() ? whole_record + HEAD_BYTES : part(&record, (unsigned)below(MODULES)), DEVICE_BYTES);
    switch (below(6)) {
    case 0: memset(mine(&old) + 38, 0, 8); break;
    case 1: memset(mine(&old) + 40, 0, 6); break;
    case 2: mine(&old)[41] = 0; break;
    case 3: mine(&old)[38] = mine(&old)[39] = mine(&old)[41] = 0; break;
    default: break;
    }
    if (percent(25))
        spoil_part(mine(&old));
    bad_field = NOTHING;
}

static size_t odd_length(size_t right)
{
    switch (below(5)) {
    case 0: return 0;
    case 1: return right - 1;
    case 2: return right + 1;
    case 3: return below(right + 64);
    default: return below(300);
    }
}

/* The length of one module's record among them. */
static size_t odd_record_length(void)
{
    return percent(25) ? DEVICE_BYTES : odd_length(RECORD_BYTES);
}

static bool goes_on;

static void choose_record(void)
{
    unsigned kind = (unsigned)below(100);

    if (kind < 65 && goes_on)
        return;
    if (kind < 96)
        possible_record();
    else if (kind < 98)
        renew(&record, RECORD_BYTES);
    else
        renew(&record, below(600));
    if (kind >= 85 && kind < 95)
        spoil_record();
    if (kind == 95)
        record.length = odd_record_length();
}

/* One module's record from before, or any bytes, of another length now and then. */
static void choose_old(void)
{
    if (percent(85))
        old_record();
    else
        renew(&old, percent(40) ? DEVICE_BYTES : percent(30) ? RECORD_BYTES : odd_length(DEVICE_BYTES));
    if (percent(4))
        old.length = odd_length(DEVICE_BYTES);
}

/* The area as it was, but for so many of a hundred turns. */
static void choose_area(unsigned anew)
{
    if (area.length == MODULE_AREA_SIZE && !percent(anew))
        return;
    renew(&area, percent(80) ? MODULE_AREA_SIZE : odd_length(MODULE_AREA_SIZE));
}

/* ---- Slots ---- */

/* Slots that go on from the last turn, or random ones, now and then with another selector or of another length. */
static void choose_slots(void)
{
    if (slots.length == SLOTS_BYTES && mine(&slots)[0] <= 1 && !percent(25))
        return;
    renew(&slots, percent(90) ? SLOTS_BYTES : odd_length(SLOTS_BYTES));
    if (slots.length > 0 && percent(85))
        mine(&slots)[0] = (uint8_t)below(2);
    else if (slots.length > 0 && percent(50))
        mine(&slots)[0] = (uint8_t)(2 + below(2));
}

static uint64_t choose_slot(void)
{
    if (percent(80))
        return below(2);
    return percent(50) ? 2 + below(3) : below(2) + ((uint64_t)1 << (8 + below(56)));
}

/* ---- Requests ---- */

/* The module's current context most often, or nearly, or the other module's, or what both have been given. */
static uint32_t context(void)
{
    uint32_t current = number_kept(named, 8), others = number_kept(1 - named, 8);

    if (percent(85))
        return current;
    return percent(30) ? others : percent(30) && is_whole() ? get32(mine(&record))
         : percent(50) ? current + (uint32_t)below(3) - 1 : (uint32_t)next();
}

static void send_request(void)
{
    uint32_t received = number_kept(named, 12);
    uint32_t length = percent(60) ? 512 : percent(10) ? 513 : percent(80) ? (uint32_t)below(514) : (uint32_t)(next() >> below(33));
    uint32_t offset = percent(85) ? received : percent(50) ? received + (uint32_t)below(5) - 2 : (uint32_t)(next() >> below(33));

    if (percent(20) && received <= MODULE_AREA_SIZE)
        length = MODULE_AREA_SIZE - received + (uint32_t)below(3) - 1;
    size_t piece = length <= 600 ? length : below(600);
    if (percent(5))
        piece = below(600);
    renew(&request, MODULE_SEND_HEAD + piece);
    put(mine(&request), 4, context());
    put(mine(&request) + 4, 4, offset);
    put(mine(&request) + 8, 4, length);
}

/* The module's passphrase, or nearly, or the other module's. */
static void passphrase(uint8_t *at)
{
    if (is_whole())
        memcpy(at, part(&record, percent(90) ? named : 1 - named) + 64, MODULE_PASSPHRASE_SIZE);
    if (percent(30))
        at[below(MODULE_PASSPHRASE_SIZE)] ^= (uint8_t)(1 << below(8));
}

/* Reserved bits of a request, so many of them from a bit on: most often none, else one of them or any. */
static uint32_t reserved_bits(unsigned first, unsigned many)
{
    if (percent(70))
        return 0;
    return percent(50) ? (uint32_t)1 << (first + below(many)) : (uint32_t)below((uint64_t)1 << many) << first;
}

static void choose_request(uint64_t function)
{
    if (percent(6)) {
        renew(&request, percent(50) ? below(70) : below(600));
        return;
    }
    switch (function) {
    case MODULE_SEND: send_request(); break;
    case MODULE_FINISH:
        renew(&request, 8);
        put(mine(&request), 4, reserved_bits(8, 24));
        mine(&request)[0] = percent(75) ? 0 : percent(60) ? 1 : (uint8_t)next();
        put(mine(&request) + 4, 4, context());
        break;
    case MODULE_QUERY:
        renew(&request, 4);
        put(mine(&request), 4, context());
        break;
    case MODULE_SET_THRESHOLD:
        renew(&request, 7);
        put(mine(&request), 2, below(8) | reserved_bits(3, 13));
        mine(&request)[2] = (uint8_t)(percent(80) ? spare_near(byte_kept(40)) : 100 + below(156));
        put(mine(&request) + 3, 2, word_near(word_kept(42)));
        put(mine(&request) + 5, 2, word_near(word_kept(44)));
        break;
    case MODULE_SET_PASSPHRASE:
        renew(&request, 2 * MODULE_PASSPHRASE_SIZE);
        passphrase(mine(&request));
        break;
    case MODULE_DISABLE:
    case MODULE_UNLOCK:
        renew(&request, MODULE_PASSPHRASE_SIZE);
        passphrase(mine(&request));
        break;
    default: renew(&request, 0);
    }
}

/* ---- One turn ---- */

enum event { FRESH, CALL, TICK, POWER, READING, ADOPT, SLOTS_FRESH, SLOTS_WRITE, SLOTS_SELECT, SLOTS_READ, EVENTS };

struct turn {
    enum event event;
    uint64_t module, revision, function, slot;
    uint8_t spare;
    uint16_t media, controller;
    int32_t given[SIDES];
};

/* Modules 0 and 1, or any other number: the next, one that is 0 or 1 in its low bits, or a huge one. */
static uint64_t choose_module(void)
{
    if (percent(93))
        return below(MODULES);
    return percent(40) ? 2 + below(3) : percent(60) ? below(MODULES) + ((uint64_t)1 << (1 + below(63))) : next() | 2;
}

static uint64_t choose_function(void)
{
    static const uint8_t served[] = {0, 1, 1, 2, 12, 13, 14, 14, 14, 14, 15, 15, 16, 16, 17, 19, 20, 20, 21, 22, 23};
    uint64_t function = served[below(sizeof served)];

    if (percent(94))
        return function;
    return percent(50) ? below(40) : percent(50) ? function + ((uint64_t)1 << (8 + below(56))) : next();
}

static uint64_t choose_revision(uint64_t function)
{
    if (function == MODULE_GET_HEALTH && percent(40))
        return 1 + below(3);
    if (percent(92))
        return 2;
    return percent(60) ? 1 : percent(50) ? below(5) : percent(50) ? 2 + ((uint64_t)1 << (8 + below(56))) : next();
}

static enum event choose_event(void)
{
    unsigned kind = (unsigned)below(100);

    if (kind < 92)
        return kind < 1 ? FRESH : kind < 65 ? CALL : kind < 79 ? TICK : kind < 83 ? POWER : kind < 90 ? READING : ADOPT;
    return kind < 93 ? SLOTS_FRESH : kind < 96 ? SLOTS_WRITE : kind < 98 ? SLOTS_SELECT : SLOTS_READ;
}

/* A reading near the thresholds that it will be held to; its spare is now and then over 100. */
static void choose_reading(struct turn *turn)
{
    turn->spare = percent(75) ? spare_near(byte_kept(32)) : (uint8_t)(100 + below(percent(60) ? 2 : 156));
    turn->media = word_near(word_kept(34));
    turn->controller = word_near(word_kept(36));
}

static struct turn choose(void)
{
    struct turn turn = {.event = choose_event()};

    good_image = false;
    bad_field = NOTHING;
    turn.module = choose_module();
    named = turn.module < MODULES ? (unsigned)turn.module : 0;
    choose_area(turn.event == READING || turn.module >= MODULES ? 8 : 1);
    choose_record();
    if (turn.event == ADOPT)
        choose_old();
    choose_slots();
    if (good_image && turn.event != ADOPT)
        turn.event = TICK;
    turn.function = choose_function();
    turn.revision = choose_revision(turn.function);
    choose_reading(&turn);
    turn.slot = choose_slot();
    choose_request(turn.function);
    renew(&answer, percent(92) ? MODULE_ANSWER_LEAST + below(40) : below(MODULE_ANSWER_LEAST + 2));
    return turn;
}

static int32_t by_library(const struct turn *turn)
{
    uint8_t *r = lent(&record, 0), *a = lent(&area, 0), *q = lent(&request, 0), *b = lent(&answer, 0), *s = lent(&slots, 0);

    switch (turn->event) {
    case FRESH: return cabinet_fresh(r, record.length);
    case TICK: return cabinet_tick(r, record.length, a, area.length);
    case POWER: return cabinet_power(r, record.length, a, area.length, turn->module);
    case READING:
        return cabinet_reading(r, record.length, a, area.length, turn->module, turn->spare, turn->media, turn->controller);
    case ADOPT: return cabinet_adopt(lent(&old, 0), old.length, r, record.length);
    case SLOTS_FRESH: return slots_fresh(s, slots.length);
    case SLOTS_WRITE: return slots_write(s, slots.length, r, record.length);
    case SLOTS_SELECT: return slots_select(s, slots.length, turn->slot);
    case SLOTS_READ: return slots_read(s, slots.length, r, record.length);
    default:
        return cabinet_call(r, record.length, a, area.length, turn->module, turn->revision, turn->function, q, request.length, b,
                            answer.length);
    }
}

static int32_t by_independent(const struct turn *turn)
{
    uint8_t *r = lent(&record, 1), *a = lent(&area, 1), *q = lent(&request, 1), *b = lent(&answer, 1), *s = lent(&slots, 1);

    switch (turn->event) {
    case FRESH: return independent_fresh(r, record.length);
    case TICK: return independent_tick(r, record.length, a, area.length);
    case POWER: return independent_power(r, record.length, a, area.length, turn->module);
    case READING:
        return independent_reading(r, record.length, a, area.length, turn->module, turn->spare, turn->media, turn->controller);
    case ADOPT: return independent_adopt(lent(&old, 1), old.length, r, record.length);
    case SLOTS_FRESH: return independent_slots_fresh(s, slots.length);
    case SLOTS_WRITE: return independent_slots_write(s, slots.length, r, record.length);
    case SLOTS_SELECT: return independent_slots_select(s, slots.length, turn->slot);
    case SLOTS_READ: return independent_slots_read(s, slots.length, r, record.length);
    default:
        return independent_call(r, record.length, a, area.length, turn->module, turn->revision, turn->function, q, request.length,
                                b, answer.length);
    }
}

static void make(struct turn *turn)
{
    turn->given[0] = by_library(turn);
    turn->given[1] = by_independent(turn);
}

/* ---- Comparing ---- */

static bool untouched(const struct buffer *buffer, int side)
{
    return memcmp(buffer->side[side], buffer->was, whole(buffer)) == 0;
}

static bool guarded(const struct buffer *buffer, int side)
{
    size_t behind = buffer->at + buffer->length;

    return memcmp(buffer->side[side], buffer->was, buffer->at) == 0
        && memcmp(buffer->side[side] + behind, buffer->was + behind, GUARD) == 0;
}

/* What is wrong with the turn, or NULL. */
static const char *fault(const struct turn *turn, const struct buffer **where)
{
    *where = &record;
    if (turn->given[0] != turn->given[1])
        return "the numbers given differ";
    for (int i = 0; i < BUFFERS; i++) {
        *where = buffers[i];
        if (!guarded(*where, 0) || !guarded(*where, 1))
            return "a guard was touched";
        if (memcmp((*where)->side[0], (*where)->side[1], whole(*where)) != 0)
            return "the bytes differ";
        if (turn->given[0] < 0 && !untouched(*where, 0))
            return "a refusal wrote something";
    }
    *where = &request;
    if (!untouched(&request, 0))
        return "the request was written";
    *where = &old;
    return untouched(&old, 0) ? NULL : "the old record was written";
}

static const char *const names[] = {"fresh",     "calls",       "ticks",       "power cycles", "readings",
                                    "adoptions", "slots_fresh", "slots_write", "slots_select", "slots_read"};

static void show(const struct turn *turn, uint64_t number, const char *what, const struct buffer *where)
{
    size_t i = 0;

    printf("turn %llu: %s (%s)\n", (unsigned long long)number, what, where->name);
    printf("%s module %llu revision %llu function %llu slot %llu spare %u media %04x controller %04x: library %d, independent %d\n",
           names[turn->event], (unsigned long long)turn->module, (unsigned long long)turn->revision,
           (unsigned long long)turn->function, (unsigned long long)turn->slot, turn->spare, turn->media, turn->controller,
           (int)turn->given[0], (int)turn->given[1]);
    while (i + 1 < whole(where) && where->side[0][i] == where->side[1][i])
        i++;
    printf("first byte that differs: %d: library %u, independent %u, before %u\n", (int)i - (int)where->at, where->side[0][i],
           where->side[1][i], where->was[i]);
    for (int b = 0; b < BUFFERS; b++) {
        printf("%s, %u bytes:", buffers[b]->name, (unsigned)buffers[b]->length);
        for (i = 0; i < buffers[b]->length && i < SLOTS_BYTES; i++)
            printf(" %02x", buffers[b]->was[buffers[b]->at + i]);
        printf("\n");
    }
}

/* ---- What came up ---- */

enum { STATUS = 6, TRIPS = 8 }; /* kinds from STATUS on are statuses, or the slots' numbers; the trips byte has three bits */

static uint64_t tally[EVENTS][32], stagings[MODULES], failures[SUM_FAULT + 1], taken_over, left_alone;
static uint64_t refused_fields[BAD_FIELDS][MODULES]; /* R3, by whether the named module's part was wrong or the other's */
static uint64_t by_module[EVENTS][MODULES];          /* what was done, by module */
static uint64_t renewed;        /* taken over by its trips byte alone */
static uint64_t wrong_trips[EVENTS];    /* R3 for a trips byte that is not the one of thresholds and reading, by event */
static uint64_t with_reading;   /* Failed without a reason, but with a reading: not taken over */
static uint64_t old_lengths[3]; /* R3 of an adoption for an old record of 127, 129 and 288 bytes */
static uint64_t trips[TRIPS];   /* function 1 accepted, by what it told */
static uint64_t health[4];      /* function 1 answered, by revision */
static uint64_t over_100[6];    /* readings of spare over 100, by R number */
static uint64_t lengths[3];     /* R3 for a record of 287, 289 and 128 bytes */

/* How a Start was answered, and how R numbers stand to each other. */
enum special {
    BUSY,
    USED_UP,
    BUSY_AND_USED_UP,
    OUT_OF_TURN_BESIDE,
    STAGED_BESIDE,
    AREA_TAKEN_OVER,
    R2_OVER_R5,
    R5_OVER_R3,
    R5_OVER_R4,
    R5_HUGE,
    OTHERS_PASSPHRASE,
    OTHERS_CONTEXT,
    SPECIALS
};

static uint64_t specials[SPECIALS];
static const char *const special_names[] = {"status 8, the other module has the area",
                                            "status 8, every context is given out",
                                            "status 8, both",
                                            "7/1 beside a module that is not Idle",
                                            "7/2 while the other module has the area",
                                            "a Start beside a module that is Staged or Failed",
                                            "R2, and the module is over 1",
                                            "R5, and the record is not possible",
                                            "R5, and the spare is over 100",
                                            "R5 for a module over 32 bits",
                                            "status 11 for the other module's passphrase",
                                            "7/1 for the other module's context"};

/* Answers by kind: 1 to 5 the R numbers, or 1 a refusal of the slots. */
static unsigned kind_of(const struct turn *turn)
{
    if (turn->given[0] < 0)
        return (unsigned)-turn->given[0];
    if (turn->event == CALL)
        return turn->function == 0 ? STATUS : STATUS + get16(lent(&answer, 0));
    return turn->event >= SLOTS_FRESH ? STATUS + (unsigned)turn->given[0] : 0;
}

static void count_health(const struct turn *turn, unsigned kind)
{
    if (turn->event == READING && turn->spare > SPARE_MOST)
        over_100[kind]++;
    if (turn->event != CALL || turn->function != MODULE_GET_HEALTH || kind < STATUS)
        return;
    if (turn->revision < 4)
        health[turn->revision]++;
    if (kind == STATUS)
        trips[lent(&answer, 0)[15] % TRIPS]++;
}

static void count_adoption(unsigned kind)
{
    const uint8_t *was = mine(&old), *is = lent(&record, 0) + HEAD_BYTES;

    if (kind == 0) {
        bool same = memcmp(was, is, DEVICE_BYTES) == 0;
        taken_over += !same;
        left_alone += same;
        renewed += is[41] != was[41] && is[0] == was[0];
    } else if (is_whole()) {
        with_reading += old.length == DEVICE_BYTES && was[0] == FAILED && all_zero(was + 38, 2) && !all_zero(was + 40, 6);
        old_lengths[0] += old.length == DEVICE_BYTES - 1;
        old_lengths[1] += old.length == DEVICE_BYTES + 1;
        old_lengths[2] += old.length == RECORD_BYTES;
    }
}

/* A record that can be looked at, before and after. */
static void count_start(unsigned kind)
{
    uint8_t own = part(&record, named)[0], other = part(&record, 1 - named)[0];
    bool none_left = get32(mine(&record)) == 4294967295u;

    specials[BUSY] += kind == STATUS + 8 && has_area(other) && !none_left;
    specials[USED_UP] += kind == STATUS + 8 && !has_area(other);
    specials[BUSY_AND_USED_UP] += kind == STATUS + 8 && has_area(other) && none_left;
    specials[OUT_OF_TURN_BESIDE] += kind == STATUS + 7 && has_area(own) && other != IDLE;
    specials[STAGED_BESIDE] += kind == STATUS + 7 && own == STAGED && has_area(other);
    specials[AREA_TAKEN_OVER] += kind == STATUS && (other == STAGED || other == FAILED);
}

static void count_call(const struct turn *turn, unsigned kind)
{
    const uint8_t *q = mine(&request), *other = part(&record, 1 - named);

    if (turn->function == MODULE_START && request.length == 0)
        count_start(kind);
    if (turn->function >= MODULE_SET_PASSPHRASE && turn->function <= MODULE_UNLOCK && kind == STATUS + 11)
        specials[OTHERS_PASSPHRASE] += other[1] == 1 && memcmp(q, other + 64, MODULE_PASSPHRASE_SIZE) == 0;
    if (turn->function == MODULE_SEND && request.length > MODULE_SEND_HEAD && kind == STATUS + 7)
        specials[OTHERS_CONTEXT] += get32(q) == get32(other + 8) && get32(q) != number_kept(named, 8);
}

/* One R number where there was cause for another too. */
static void count_order(const struct turn *turn, unsigned kind)
{
    bool names = turn->event == CALL || turn->event == POWER || turn->event == READING;

    specials[R2_OVER_R5] += names && kind == 2 && turn->module >= MODULES;
    specials[R5_OVER_R3] += kind == 5 && (bad_field != NOTHING || !is_whole());
    specials[R5_OVER_R4] += kind == 5 && turn->event == READING && turn->spare > SPARE_MOST;
    specials[R5_HUGE] += kind == 5 && turn->module >> 32 != 0;
}

/* How often a reserved bit, and nothing else of the request, was refused: bits 8 to 31 of a Finish, 3 to 15 of a Set Threshold. */
static uint64_t finish_bits[32], enable_bits[16];

static void count_bit(uint64_t *bits, uint32_t reserved)
{
    if (reserved != 0 && (reserved & (reserved - 1)) == 0)
        bits[__builtin_ctz(reserved)]++;
}

static void count_reserved(const struct turn *turn)
{
    const uint8_t *at = mine(&request);

    if (turn->function == MODULE_FINISH && request.length == 8 && at[0] <= 1)
        count_bit(finish_bits, get32(at) & 0xffffff00u);
    if (turn->function == MODULE_SET_THRESHOLD && request.length == 7 && at[2] <= 100)
        count_bit(enable_bits, get16(at) & 0xfff8u);
}

static void count_refused(const struct turn *turn)
{
    unsigned whose = spoiled != named;

    refused_fields[bad_field][bad_field >= OF_BOTH ? 0 : whose]++;
    wrong_trips[turn->event] += bad_field == WRONG_TRIPS;
    lengths[0] += record.length == RECORD_BYTES - 1;
    lengths[1] += record.length == RECORD_BYTES + 1;
    lengths[2] += record.length == DEVICE_BYTES;
}

static void count(const struct turn *turn)
{
    unsigned kind = kind_of(turn);

    tally[turn->event][kind & 31]++;
    count_health(turn, kind);
    count_order(turn, kind);
    if (kind == 0 || (turn->event == CALL && kind == STATUS))
        by_module[turn->event][named]++;
    for (unsigned module = 0; turn->event == TICK && kind == 0 && module < MODULES; module++) {
        const uint8_t *after = lent(&record, 0) + device_at(module);
        if (part(&record, module)[0] == VERIFYING) {
            stagings[module] += after[0] == STAGED;
            failures[after[0] == FAILED ? after[38] : NO_FAULT]++;
        }
    }
    if (turn->event == ADOPT)
        count_adoption(kind);
    else if (kind == 3)
        count_refused(turn);
    if (turn->event == CALL && kind >= STATUS)
        count_call(turn, kind);
    if (turn->event == CALL && kind == STATUS + MODULE_WRONG_FIELD)
        count_reserved(turn);
}

static const char *const reasons[] = {"none", "size", "number", "count", "version", "sum"};
static const char *const bad_fields[] = {"nothing", "no reason in Failed", "reason 6", "record 128", "a reason elsewhere",
                                         "a record elsewhere", "a reading's spare over 100", "a wrong trips byte",
                                         "a current context over those given out", "no current context outside Idle",
                                         "both modules with the area", "a byte behind the contexts"};

static void report_health(void)
{
    printf("function 1: revision 1 %llu, revision 2 %llu, revision 3 %llu; trips", (unsigned long long)health[1],
           (unsigned long long)health[2], (unsigned long long)health[3]);
    for (int told = 0; told < TRIPS; told++)
        printf(" %d: %llu%s", told, (unsigned long long)trips[told], told < TRIPS - 1 ? "," : "\n");
    printf("readings of spare over 100: R2 %llu, R5 %llu, R3 %llu, R4 %llu\n", (unsigned long long)over_100[2],
           (unsigned long long)over_100[5], (unsigned long long)over_100[3], (unsigned long long)over_100[4]);
}

static void report(uint64_t turns)
{
    printf("%llu turns agree, no guard touched\n", (unsigned long long)turns);
    for (int event = FRESH; event <= ADOPT; event++) {
        uint64_t *row = tally[event];
        printf("%s: R1 %llu, R2 %llu, R5 %llu, R3 %llu", names[event], (unsigned long long)row[1], (unsigned long long)row[2],
               (unsigned long long)row[5], (unsigned long long)row[3]);
        if (event == READING)
            printf(", R4 %llu", (unsigned long long)row[4]);
        if (event != CALL)
            printf(", done %llu\n", (unsigned long long)row[0]);
        for (int status = 0; event == CALL && status < 12; status++)
            if (row[STATUS + status])
                printf(", status %d %llu", status, (unsigned long long)row[STATUS + status]);
        if (event == CALL)
            printf("\n");
    }
    for (int event = SLOTS_FRESH; event < EVENTS; event++)
        printf("%s: refused %llu, 0 %llu, 1 %llu\n", names[event], (unsigned long long)tally[event][1],
               (unsigned long long)tally[event][STATUS], (unsigned long long)tally[event][STATUS + 1]);
    printf("verified: %llu and %llu staged; failed by", (unsigned long long)stagings[0], (unsigned long long)stagings[1]);
    for (int reason = SIZE_FAULT; reason <= SUM_FAULT; reason++)
        printf(" %s %llu%s", reasons[reason], (unsigned long long)failures[reason], reason < SUM_FAULT ? "," : "\n");
    printf("adopted: %llu taken over, %llu left as they were, %llu refused for a reading\n", (unsigned long long)taken_over,
           (unsigned long long)left_alone, (unsigned long long)with_reading);
    report_health();
    for (int i = 0; i < SPECIALS; i++)
        printf("%s: %llu\n", special_names[i], (unsigned long long)specials[i]);
}

/* So many turns come to each of these ten times or so at least, whatever the seed. A run that never did has compared less than
 * it says. */
enum { LONG = 100000 };

static const struct {
    enum event event;
    uint8_t kind;
    const char *what;
} must[] = {
    {FRESH, 3, "R3"},              {CALL, 1, "R1"},                  {CALL, 2, "R2"},
    {CALL, 3, "R3"},               {CALL, 5, "R5"},                  {CALL, STATUS + 0, "status 0"},
    {CALL, STATUS + 1, "status 1"}, {CALL, STATUS + 3, "status 3"},  {CALL, STATUS + 6, "status 6"},
    {CALL, STATUS + 7, "status 7"}, {CALL, STATUS + 8, "status 8"},  {CALL, STATUS + 10, "status 10"},
    {CALL, STATUS + 11, "status 11"}, {TICK, 2, "R2"},               {TICK, 3, "R3"},
    {POWER, 2, "R2"},              {POWER, 3, "R3"},                 {POWER, 5, "R5"},
    {READING, 2, "R2"},            {READING, 3, "R3"},               {READING, 4, "R4"},
    {READING, 5, "R5"},            {READING, 0, "a reading kept"},   {ADOPT, 3, "R3"},
    {SLOTS_FRESH, 1, "-1"},        {SLOTS_FRESH, STATUS, "0"},       {SLOTS_WRITE, 1, "-1"},
    {SLOTS_WRITE, STATUS, "0"},    {SLOTS_WRITE, STATUS + 1, "1"},   {SLOTS_SELECT, 1, "-1"},
    {SLOTS_SELECT, STATUS, "0"},   {SLOTS_READ, 1, "-1"},            {SLOTS_READ, STATUS, "0"},
};

static bool reached(uint64_t count, const char *who, const char *what)
{
    if (count == 0)
        printf("never reached: %s: %s\n", who, what);
    return count != 0;
}

/* Function 1 at each revision, every trips byte, and a spare over 100 behind each R number. */
static bool reached_health(void)
{
    static const char *const revisions[] = {"", "revision 1", "revision 2", "revision 3"};
    static const char *const told[] = {"trips 0", "trips 1", "trips 2", "trips 3", "trips 4", "trips 5", "trips 6", "trips 7"};
    static const char *const numbers[] = {"", "", "R2", "R3", "R4", "R5"};
    bool all = true;

    for (int revision = 1; revision < 4; revision++)
        all &= reached(health[revision], "function 1", revisions[revision]);
    for (int i = 0; i < TRIPS; i++)
        all &= reached(trips[i], "function 1", told[i]);
    for (int number = 2; number < 6; number++)
        all &= reached(over_100[number], "a reading of spare over 100", numbers[number]);
    return all;
}

/* Everything of each module, each part of a record wrong whichever module is named, and lengths of a record that are nearly right. */
static bool reached_modules(void)
{
    static const char *const one_or_other[] = {"module 0", "module 1"};
    static const char *const sizes[] = {"R3 for 287 bytes", "R3 for 289 bytes", "R3 for 128 bytes"};
    static const char *const old_sizes[] = {"R3 for 127 bytes", "R3 for 129 bytes", "R3 for 288 bytes"};
    static const enum event of_one[] = {CALL, POWER, READING};
    bool all = true;

    for (int module = 0; module < MODULES; module++) {
        all &= reached(stagings[module], "a staging", one_or_other[module]);
        for (size_t i = 0; i < sizeof of_one / sizeof *of_one; i++)
            all &= reached(by_module[of_one[i]][module], names[of_one[i]], one_or_other[module]);
    }
    for (int wrong = NO_REASON; wrong < BAD_FIELDS; wrong++) {
        all &= reached(refused_fields[wrong][0], "R3 for", bad_fields[wrong]);
        if (wrong < OF_BOTH)
            all &= reached(refused_fields[wrong][1], "R3 in the other module's part for", bad_fields[wrong]);
    }
    for (int i = 0; i < 3; i++) {
        all &= reached(lengths[i], "a record", sizes[i]);
        all &= reached(old_lengths[i], "an old record", old_sizes[i]);
    }
    for (int i = 0; i < SPECIALS; i++)
        all &= reached(specials[i], "modules", special_names[i]);
    return all;
}

static bool reached_all(void)
{
    bool all = reached_health();

    all &= reached_modules();
    for (size_t i = 0; i < sizeof must / sizeof *must; i++)
        all &= reached(tally[must[i].event][must[i].kind], names[must[i].event], must[i].what);
    for (int reason = SIZE_FAULT; reason <= SUM_FAULT; reason++)
        all &= reached(failures[reason], "failed by", reasons[reason]);
    for (int bit = 8; bit < 32; bit++)
        all &= reached(finish_bits[bit], "refused by itself", "a reserved bit of a Finish");
    for (int bit = 3; bit < 16; bit++)
        all &= reached(enable_bits[bit], "refused by itself", "a reserved enable bit");
    for (int event = CALL; event <= READING; event++)
        all &= reached(wrong_trips[event], names[event], "R3 for a wrong trips byte");
    all &= reached(taken_over, names[ADOPT], "a record taken over");
    all &= reached(renewed, names[ADOPT], "a trips byte renewed");
    all &= reached(left_alone, names[ADOPT], "a record left as it was");
    all &= reached(with_reading, names[ADOPT], "R3 for a reading in Failed without a reason");
    return all;
}

/* The next turn may go on from this one, unless the record was refused. */
static void go_on(const struct turn *turn)
{
    goes_on = turn->given[0] != R3;
    memcpy(record.was, record.side[0], whole(&record));
    memcpy(area.was, area.side[0], whole(&area));
    memcpy(slots.was, slots.side[0], whole(&slots));
}

int main(int words, char **word)
{
    const struct buffer *where;

    if (words != 3)
        return 2;
    state = strtoull(word[1], NULL, 10);
    uint64_t turns = strtoull(word[2], NULL, 10);
    for (uint64_t i = 0; i < turns; i++) {
        struct turn turn = choose();
        for (int b = 0; b < BUFFERS; b++)
            lend(buffers[b]);
        make(&turn);
        const char *what = fault(&turn, &where);
        if (what) {
            show(&turn, i, what, where);
            return 1;
        }
        count(&turn);
        go_on(&turn);
    }
    report(turns);
    return turns < LONG || reached_all() ? 0 : 1;
}
