/* The two persistent memory modules of the recorder cabinet, as a library.
 *
 * Modules 0 and 1 share one staging area and the numbers of contexts; everything else each has for itself. Their whole state is
 * one record and the area, both bytes in the caller's own memory. Each function takes them, does one thing to them, and keeps
 * nothing: no state of its own, no heap, no lock. What the functions do is proved (crates/abi); docs/ says against what.
 *
 * For every function:
 *  - Any bytes of any length get an answer, and so does any number of a module. Nothing is asked of a buffer but that it has the
 *    bytes that its length says.
 *  - No pointer is NULL, not with length 0 either: a buffer of length 0, such as an empty request, may point anywhere else.
 *  - A buffer that a function writes overlaps no other buffer of the same call. Those that are only read may overlap.
 *  - No two calls at one time on the same record, the same area, the same slots or the same output; not for different modules
 *    either, whose record and area are the same.
 *  - A number below 0 has written nothing at all.
 *  - A record is written byte after byte, not at once, and so is any copy of it. Where power may go at any moment, the
 *    record that the functions work on is in ordinary memory, and is kept in two slots: "Power loss", below.
 *
 * The record lives as long as the cabinet does, through every power cycle: cabinet_fresh or slots_fresh is for a new cabinet,
 * once in its life, and cabinet_power for each time that power comes back to a module. A cabinet made fresh again would give out
 * its contexts from 1 again, and a late piece of one transfer could land in another's. The area may begin with any bytes.
 *
 * What the modules share: a context is given once, by whichever module. The area is a module's from its Start until it is neither
 * Receiving nor Verifying: until an abort, the last tick or its power cycle. Meanwhile the other module's Start, where
 * that module is Idle or Failed, is answered MODULE_NO_CONTEXT, and is to be made again later. Where the record is a possible one, no
 * other call of a module depends on the other one; and no call, reading or power cycle of a module changes the other one's part of
 * the record. A tick reaches both.
 *
 * After an update of this library, where MODULE_RECORD_LAYOUT is another number than the one kept beside the record: cabinet_adopt,
 * once, before anything else. Its callers are built again with this header. The functions of one module, module_fresh, module_call,
 * module_tick, module_power, module_reading and module_adopt, are gone, so that who still calls them fails to link: their record
 * was another. MODULE_ANSWER_LEAST was 64 under layouts 1 and 2, and such a buffer gives R1 to every call now.
 *
 * The library calls memcpy and memset, and nothing else.
 */
#ifndef MODULE_LIBRARY_H
#define MODULE_LIBRARY_H

#include <stddef.h>
#include <stdint.h>

#ifdef __cplusplus
extern "C" {
#endif

/* Sizes in bytes. */
#define MODULE_RECORD_SIZE 288   /* the record of both modules */
#define MODULE_PART_SIZE 128     /* one module's part of it; under layouts 1 to 4 the whole record */
#define MODULE_AREA_SIZE 16384   /* the staging area */
#define MODULE_ANSWER_LEAST 132  /* the least answer buffer of a call, whichever function it is of */
#define MODULE_ANSWER_MOST 132   /* the longest answer */
#define MODULE_PIECE_MOST 512    /* the longest piece of one Send */
#define MODULE_SEND_HEAD 12      /* what stands before the piece: context, offset, length, 4 bytes each */
#define MODULE_PASSPHRASE_SIZE 32
#define MODULE_SLOTS_SIZE 577    /* the selector, and two slots for the record */

/* The modules are 0 and 1. */
#define MODULE_COUNT 2

/* The R numbers, in the order in which they are looked for. */
#define MODULE_R1 (-1) /* the answer buffer is shorter than MODULE_ANSWER_LEAST */
#define MODULE_R2 (-2) /* the area is not MODULE_AREA_SIZE bytes */
#define MODULE_R5 (-5) /* the module is over 1 */
#define MODULE_R3 (-3) /* the record is not possible as a whole, or not MODULE_RECORD_SIZE bytes, or its bytes are no record */
#define MODULE_R4 (-4) /* a new reading's spare is over 100 */

/* The function indexes of a call, and the revision that serves them all. */
#define MODULE_REVISION 2
#define MODULE_MASK 0
#define MODULE_GET_HEALTH 1
#define MODULE_GET_THRESHOLD 2
#define MODULE_GET_FW_INFO 12
#define MODULE_START 13
#define MODULE_SEND 14
#define MODULE_FINISH 15
#define MODULE_QUERY 16
#define MODULE_SET_THRESHOLD 17
#define MODULE_GET_SECURITY_STATE 19
#define MODULE_SET_PASSPHRASE 20
#define MODULE_DISABLE 21
#define MODULE_UNLOCK 22
#define MODULE_FREEZE 23

/* The statuses, and the extended numbers of MODULE_OUT_OF_TURN. */
#define MODULE_ACCEPTED 0
#define MODULE_NOT_SERVED 1       /* the function is not served at this revision */
#define MODULE_WRONG_FIELD 3      /* the request's length, or a field of it */
#define MODULE_NO_VERSION 6       /* Query in Staged with staged version 0 */
#define MODULE_OUT_OF_TURN 7      /* a step of a transfer out of turn; the extended number says why */
#define MODULE_NO_CONTEXT 8       /* Start while the other module is Receiving or Verifying, or with every context given out */
#define MODULE_FORBIDDEN 10       /* the security state forbids the call */
#define MODULE_WRONG_PASSPHRASE 11
/*   Start:  1 Receiving or Verifying; 2 Staged; both of this module, and before MODULE_NO_CONTEXT
 *   Send:   1 not Receiving, or not with this context
 *   Finish: 1 the context is not live; 2 not Receiving
 *   Query:  1 the context is not live; 2 Verifying; 3 Failed; 4 Receiving */

/* Requests and answers, little-endian; in brackets the bytes. Every answer but that of MODULE_MASK begins with status [0-1] and
 * extended number [2-3]; where the status is not 0 the rest of it is zeros, and MODULE_NOT_SERVED answers 4 bytes.
 *
 *   MODULE_MASK                request: anything
 *                              answer:  the bits of the functions that the revision serves [0-3], and no status
 *   MODULE_GET_HEALTH          request: none
 *                              answer:  what is valid here [4-7], always 0000021Ah, zeros [8-12], spare [13], zero [14], the alarms
 *                                       that trip [15] (bit 0 spare, 1 media, 2 controller), media temperature [16-17], controller
 *                                       temperature [18-19], zeros [20-131]
 *   MODULE_GET_THRESHOLD       request: none
 *                              answer:  enable bits [4-5] (0 spare, 1 media, 2 controller), spare [6], media temperature [7-8],
 *                                       controller temperature [9-10], zero [11]
 *   MODULE_GET_FW_INFO         request: none
 *                              answer:  area size [4-7], longest piece [8-11], microseconds of a tick [12-15] and of a
 *                                       verification [16-19], capability 0 [20], zeros [21-23], interface version 1 [24-27],
 *                                       running version [28-35], staged version [36-43]
 *   MODULE_START               request: none
 *                              answer:  context [4-7]
 *   MODULE_SEND                request: context [0-3], offset [4-7], length [8-11], the piece from 12 on
 *   MODULE_FINISH              request: flag [0] (0 verify, 1 abort), reserved [1-3], context [4-7]
 *   MODULE_QUERY               request: context [0-3]
 *                              answer:  staged version [4-11]
 *   MODULE_SET_THRESHOLD       request: enable bits [0-1] (3 to 15 reserved), spare [2], media temperature [3-4],
 *                                       controller temperature [5-6]
 *   MODULE_GET_SECURITY_STATE  request: none
 *                              answer:  zeros [4-7], state [8] (bit 1 enabled, 2 locked, 3 frozen, 4 attempts at 10), zeros [9-11]
 *   MODULE_SET_PASSPHRASE      request: current passphrase [0-31], new passphrase [32-63]
 *   MODULE_DISABLE, MODULE_UNLOCK
 *                              request: current passphrase [0-31]
 *   MODULE_FREEZE              request: none
 *
 * A request has exactly these bytes, but for MODULE_MASK's. Reserved bytes and bits are zeros: any other gives
 * MODULE_WRONG_FIELD, whatever else the request carries. Where no answer is named it is the status and the extended number. */

/* A temperature word, in a reading and in a threshold alike: bits 0 to 14 are its size in sixteenths of a degree Celsius, bit 15 is
 * set below zero. 0190h is 25 degrees, 8190h is 25 below zero; 8000h equals 0000h. Any word is one.
 *
 * An alarm trips where its enable bit is set and the last reading's spare is below the spare threshold, or its temperature above
 * the temperature's. What equals its threshold does not trip. The record keeps the trips byte, and a reading and a Set Threshold
 * renew it: at each answer of MODULE_GET_HEALTH it is what the last reading and the thresholds as they are give. Before the first
 * reading spare and temperatures are 0, and answered as valid. */

/* The version of the record's layout, for the caller to keep beside a record that outlives this library: the record's bytes
 * do not say it. Where a field joins the record it is another number. */
#define MODULE_RECORD_LAYOUT 5

/* What a record kept under an older layout means under layout 5. Layouts 1 to 4 were the record of one module, in MODULE_PART_SIZE
 * bytes, with the contexts given out at 8 to 11; it is not the length of a record any more, and gives R3 to everything. Such a
 * record becomes module 0: its contexts are those given out, and so its current context; module 1 is a fresh module.
 * Layout 3 had no trips byte, which is to be the one that thresholds and reading give. Layout 2 had no reading either. Layout 1 had
 * no fault either, and in Failed it kept no reason, which is not possible any more. cabinet_adopt takes all of these over. */

/* The reasons of a fault, in the order in which they are looked for: the size of what was received; then, from record 0 up,
 * a record's number, count, version and sum. */
#define MODULE_FAULT_SIZE 1
#define MODULE_FAULT_NUMBER 2
#define MODULE_FAULT_COUNT 3
#define MODULE_FAULT_VERSION 4 /* zero in record 0; in any other record, unlike record 0's */
#define MODULE_FAULT_SUM 5

/* The record, little-endian:
 *
 *   0-3      contexts given out, to whichever module
 *   4-31     zero
 *   32-159   module 0
 *   160-287  module 1
 *
 * and a module's part of it:
 *
 *   0       phase: 0 Idle, 1 Receiving, 2 Verifying, 3 Staged, 4 Failed
 *   1 2 3   security enabled, locked, frozen: each 0 or 1
 *   4       wrong attempts
 *   5       ticks left
 *   6-7     threshold enable bits
 *   8-11    current context: the last that this module was given, in Idle too; 0 before its first
 *   12-15   bytes received
 *   16-23   running version
 *   24-31   staged version
 *   32      spare threshold
 *   33      zero
 *   34-35   media temperature threshold
 *   36-37   controller temperature threshold
 *   38      in Failed, the reason of the first fault, MODULE_FAULT_SIZE to MODULE_FAULT_SUM; else 0
 *   39      in Failed, the number of its record, from 0 to 127; a tick writes 0 for MODULE_FAULT_SIZE; else 0
 *   40      the last reading: spare, 0 to 100
 *   41      the trips byte, the alarms that thresholds and last reading trip: bit 0 spare, 1 media temperature, 2 controller
 *           temperature; any other byte gives R3
 *   42-43   the last reading: media temperature
 *   44-45   the last reading: controller temperature
 *   46-63   zero
 *   64-95   passphrase
 *   96-127  zero
 *
 * Bytes that are not of this form are no record, and give R3. 288 zeros are of this form: a record with running versions 0, and
 * not what cabinet_fresh makes. A record is possible only where each module's current context is at most the contexts given out,
 * and at least 1 outside Idle, and where at most one of the modules is Receiving or Verifying. R3 is about the whole record: a
 * call to one module gives it too where only the other's part is not possible. */

/* An image, which the pieces of a transfer make, joined: 1 to MODULE_IMAGE_MOST records of MODULE_IMAGE_RECORD bytes, and nothing
 * before, between or behind them. Record i of n, from 0, little-endian:
 *
 *   0-1      i
 *   2-3      n
 *   4-11     the version: not 0, and the same in every record
 *   12-123   payload: anything
 *   124-127  the sum of the 31 numbers of 4 bytes before it (at 0, 4, .. 120), wrapped at 32 bits
 *
 * A Send's piece may begin and end anywhere in it. Bytes of any other form are received all the same, and fail at the last tick. */
#define MODULE_IMAGE_RECORD 128
#define MODULE_IMAGE_MOST 128
#define MODULE_IMAGE_PART 112      /* the payload of one record */

/* A new cabinet's record: both modules Idle, running version 1, everything else zero or off. Once in a cabinet's life.
 *
 * Reads:   the length of the record; none of its bytes.
 * Writes:  all of the record.
 * Answers: 0; MODULE_R3 where record_len is not MODULE_RECORD_SIZE. */
int32_t cabinet_fresh(uint8_t *record, size_t record_len);

/* One call of a host to a module: a function of the table at a revision, with its request.
 *
 * Reads:   record, request, the lengths of area and answer; none of their bytes.
 * Writes:  the answer's bytes at the front of answer, and no byte behind them. Where the call is accepted, also record and area,
 *          as the function says: of the record the module's part and, for a Start, the contexts given out; of the area at most the
 *          piece of a Send. Where it is refused by a status, nothing else, but for status 11 (wrong passphrase), which adds one to
 *          the wrong attempts in the module's part.
 * Answers: the length of the answer, 4 to MODULE_ANSWER_MOST; MODULE_R1, MODULE_R2, MODULE_R5 or MODULE_R3, looked for in this
 *          order.
 *
 * An answer begins with a 2-byte status and a 2-byte extended number, but for function 0, whose answer is its mask. The call
 * is accepted where the status is 0. */
int32_t cabinet_call(uint8_t *record, size_t record_len, uint8_t *area, size_t area_len, uint64_t module, uint64_t revision,
                     uint64_t function, const uint8_t *request, size_t request_len, uint8_t *answer, size_t answer_len);

/* One tick: 1,000 microseconds, for both modules. A module that verifies counts it, and at its last tick tells whether the bytes
 * received are a good image: then it is Staged, else Failed, with the reason and the record number of the first fault in its part
 * of the record. The area is then free for the other module.
 *
 * Reads:   record, area.
 * Writes:  record, of a module that verifies its part.
 * Answers: 0; MODULE_R2 or MODULE_R3, looked for in this order. */
int32_t cabinet_tick(uint8_t *record, size_t record_len, const uint8_t *area, size_t area_len);

/* One power cycle of one module: a staged version runs, a transfer is over, security is locked if it is enabled. Each time that
 * power comes back to the module, before any call to it; where ordinary memory was lost with it, for both modules.
 *
 * Reads:   record, the length of the area; none of its bytes.
 * Writes:  record, of the module its part.
 * Answers: 0; MODULE_R2, MODULE_R5 or MODULE_R3, looked for in this order. */
int32_t cabinet_power(uint8_t *record, size_t record_len, const uint8_t *area, size_t area_len, uint64_t module);

/* One health reading of one module: the spare, and two temperature words. The record keeps the last one, through every power cycle,
 * and MODULE_GET_HEALTH is answered from it and from the trips byte, which is renewed with it. It is no host's call: make it
 * whenever the module's own sensors have been read, in any phase and any security state, then keep the record, as under "Power
 * loss".
 *
 * Reads:   record, the length of the area; none of its bytes.
 * Writes:  record; bytes 40 to 45 of the module's part may change, and no other.
 * Answers: 0; MODULE_R2, MODULE_R5, MODULE_R3 or MODULE_R4, looked for in this order. */
int32_t cabinet_reading(uint8_t *record, size_t record_len, const uint8_t *area, size_t area_len, uint64_t module, uint8_t spare,
                        uint16_t media, uint16_t controller);

/* The record of one module that an older library has kept, taken over as module 0 of a cabinet whose module 1 is fresh: its contexts
 * are those given out, and the last of them its current one. Its trips byte, where that is zero and must not be, becomes the one
 * that thresholds and reading give; and one in Failed without a reason, its bytes 38 to 63 zero, as layout 1 has it, becomes Idle
 * with received 0. Every other byte of it stays as it was. Once, after an update of the library, before anything else; where the
 * record is in slots, as "From one module to the cabinet" says, under "Power loss". The same old record gives the same record again.
 * A second module's old record cannot be taken over beside the first: contexts that it has given may be the first one's too.
 *
 * Reads:   old, the length of the record; none of its bytes.
 * Writes:  all of the record.
 * Answers: 0; MODULE_R3 where old_len is not MODULE_PART_SIZE, record_len not MODULE_RECORD_SIZE, or the bytes of old are no
 *          possible record of layouts 1 to 4. */
int32_t cabinet_adopt(const uint8_t *old, size_t old_len, uint8_t *record, size_t record_len);

/* ---- Power loss ----
 *
 * 288 bytes do not reach memory at once, so that a record put in another's place can be a mixture of the two, with a context
 * in it that was given before. So the record is kept in two slots, and a selector says which one holds it:
 *
 *   0        the selector: 0 or 1
 *   1-288    slot 0
 *   289-576  slot 1
 *
 * A write goes to the slot that is not selected, and selecting it is one byte. Whatever part of a write reached memory, in
 * whatever order, slots_read gives the old record; before the selector's byte is there it gives the old one, after it the
 * new one. That is proved (crates/cabinet_slots). What the memory does is the caller's: it holds the slots at a fixed place,
 * writes single bytes, each whole, and has a flush that returns when given bytes are there for good.
 *
 * A new cabinet, once in its life: slots_fresh, then flush all MODULE_SLOTS_SIZE bytes, before any host can call it. Where
 * power goes before that is done, do it again; later, never, but where "From one module to the cabinet" says so.
 *
 * Each time that power comes back to the cabinet, and so whenever ordinary memory was lost:
 *   1. slots_read into a record in ordinary memory.
 *   2. cabinet_power on that record for module 0, then for module 1. A number below 0, here or from slots_read: these bytes
 *      were not kept so, and the cabinet stays off.
 *   3. Keep the record, as below, once for both. Where power goes before that is done, the record from before is read again, and
 *      both power cycles are made again. Then the first call may come.
 * Where power comes back to one module alone, and record and area are in ordinary memory as they were: cabinet_power for that
 * module, then keep the record. The other module's transfer goes on.
 *
 * A call:
 *   1. cabinet_call on the record in ordinary memory. The answer stays in its buffer for now.
 *   2. Keep the record:
 *      a. slots_write, which gives the number of the slot that it wrote.
 *      b. Flush that slot. Without it the selector could be in memory before the slot is, and a mixture be read.
 *      c. slots_select, with that number.
 *      d. Flush the selector: before the host gets its answer, or a context that was answered could be given again, by either
 *         module; and before the next slots_write, or that would write the slot which in memory is still the selected one.
 *   3. Give the host its answer.
 * A tick: cabinet_tick, then keep the record. A reading: cabinet_reading, then keep the record; else a power loss brings the
 * reading before it back. Where a function has left every byte of the record as it was, there is nothing to keep.
 *
 * The area may tear, or be lost with ordinary memory, and needs no flush: after the power cycles both modules are Idle with no
 * bytes received, and nothing of the area is read before it has been sent again. A staged version is a number in the record.
 *
 * From one module to the cabinet, where the layout's number, one byte at a fixed place of its own, is 1 to 4 and not
 * MODULE_RECORD_LAYOUT, before the first of the steps above. The old slots are 257 bytes, the selector, slot 0 at 1-128 and slot 1 at 129-256; slots_read does not take
 * them any more. The new ones are in other memory, and nothing writes the old ones again.
 *   1. The old record is the old slot 0 where the old selector is 0, slot 1 where it is 1; where it is neither, these bytes were
 *      not kept so, and the cabinet stays off.
 *   2. cabinet_adopt from it into a record in ordinary memory. A number below 0: likewise.
 *   3. slots_fresh on the new slots, slots_write of that record, slots_select of the slot that it wrote. Then flush all
 *      MODULE_SLOTS_SIZE bytes.
 *   4. Put MODULE_RECORD_LAYOUT in the place of the layout's number that was 1 to 4, and flush that byte. Where power goes before it
 *      is there, all of this is done again from the old slots, and comes to the same. Once it is there the new slots are read, and
 *      the old ones never again: they do not have the contexts that the cabinet gives.
 * Then as each time that power comes back.
 *
 * examples/two_hosts.c does all of it but what an update of the library asks for: its slots are its own and new. */

#define MODULE_REFUSED (-1) /* what the four slots_ functions answer where they did nothing */

/* A new cabinet's slots: slot 0 is selected and holds what cabinet_fresh makes, slot 1 is zeros. Once in a cabinet's life, as "Power loss" says.
 *
 * Reads:   the length of the slots; none of their bytes.
 * Writes:  all of the slots.
 * Answers: 0; MODULE_REFUSED where slots_len is not MODULE_SLOTS_SIZE. */
int32_t slots_fresh(uint8_t *slots, size_t slots_len);

/* Puts a record's bytes, whatever they are, into the slot that is not selected.
 *
 * Reads:   the selector, record.
 * Writes:  the slot that is not selected; neither the selector nor the other slot.
 * Answers: the number of the slot written, 0 or 1; MODULE_REFUSED where slots_len is not MODULE_SLOTS_SIZE, record_len not
 *          MODULE_RECORD_SIZE, or the selector neither 0 nor 1. */
int32_t slots_write(uint8_t *slots, size_t slots_len, const uint8_t *record, size_t record_len);

/* Selects a slot. The same again changes nothing.
 *
 * Reads:   the selector.
 * Writes:  the selector.
 * Answers: 0; MODULE_REFUSED where slots_len is not MODULE_SLOTS_SIZE, slot is over 1, or the selector neither 0 nor 1. */
int32_t slots_select(uint8_t *slots, size_t slots_len, uint64_t slot);

/* Gives the bytes of the selected slot.
 *
 * Reads:   the selector, the selected slot.
 * Writes:  all of record.
 * Answers: 0; MODULE_REFUSED where slots_len is not MODULE_SLOTS_SIZE, record_len not MODULE_RECORD_SIZE, or the selector
 *          neither 0 nor 1. */
int32_t slots_read(const uint8_t *slots, size_t slots_len, uint8_t *record, size_t record_len);

/* ---- Images made, and read back ---- */

#define IMAGE_VERSION_0 (-1)     /* image_make: the version is 0 */
#define IMAGE_OVER_128 (-2)      /* image_make: the payload is over 128 records, which is over 14,336 bytes */
#define IMAGE_MAKE_ROOM (-3)     /* image_make: the output is too short */
#define IMAGE_NOT_GOOD (-1)      /* image_read: not a good image */
#define IMAGE_READ_ROOM (-2)     /* image_read: the output is too short */

/* The image of a payload, which either module accepts as a good image of this version: the payload is cut into parts of
 * MODULE_IMAGE_PART bytes, the last filled with zeros, one to a record; an empty payload makes one record.
 *
 * Reads:   payload, the length of the output; none of its bytes.
 * Writes:  the image at the front of output, MODULE_IMAGE_RECORD bytes for each record, and no byte behind it.
 * Answers: the length of the image; IMAGE_VERSION_0, IMAGE_OVER_128 or IMAGE_MAKE_ROOM, looked for in this order. */
int32_t image_make(uint64_t version, const uint8_t *payload, size_t payload_len, uint8_t *output, size_t output_len);

/* The payload that an image carries: all MODULE_IMAGE_PART bytes of each record, the zeros with which image_make fills the
 * last one among them. The image is tested as cabinet_tick tests it.
 *
 * Reads:   image, the length of the output; none of its bytes.
 * Writes:  the payload at the front of output, MODULE_IMAGE_PART bytes for each record, and no byte behind it.
 * Answers: the length of what was written; IMAGE_NOT_GOOD or IMAGE_READ_ROOM, looked for in this order. */
int32_t image_read(const uint8_t *image, size_t image_len, uint8_t *output, size_t output_len);

#ifdef __cplusplus
}
#endif

#endif
