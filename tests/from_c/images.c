/* Images from C, made and read back by the library and by the independent program.
 *
 *     images                   every payload of 0 to 14,400 bytes, outputs with room and one byte too short, versions 0 and others,
 *                              each image read back whole, cut and damaged; the first difference is printed
 *     images WHAT SIDE TIMES   calls to count the instructions of: WHAT is make or read, of 14,336 bytes; SIDE is library,
 *                              independent, or none, which makes no call
 *
 * Every output has guard bytes behind it: both sides get the same bytes, and all of them are compared. */
#include <stdio.h>
#include <stdlib.h>
#include <string.h>

#include "../../include/module.h"

int32_t independent_image_make(uint64_t version, const uint8_t *payload, size_t payload_len, uint8_t *output, size_t output_len);
int32_t independent_image_read(const uint8_t *image, size_t image_len, uint8_t *output, size_t output_len);

enum { LONGEST = 14400, FULL = 14336, ROOM = 17000 };

static uint8_t payload[LONGEST], image[ROOM], one[ROOM], other[ROOM];

static int differ(const char *what, size_t size, size_t room, int32_t given, int32_t wanted)
{
    if (given == wanted && memcmp(one, other, ROOM) == 0)
        return 0;
    printf("%s of %lu bytes, output of %lu: the library gives %d, the independent program %d\n", what, (unsigned long)size,
           (unsigned long)room, (int)given, (int)wanted);
    return 1;
}

static int read_both(size_t size, size_t room)
{
    memset(one, 0xA5, ROOM);
    memset(other, 0xA5, ROOM);
    return differ("image_read", size, room, image_read(image, size, one, room), independent_image_read(image, size, other, room));
}

static int make_both(uint64_t version, size_t size, size_t room)
{
    memset(one, 0xA5, ROOM);
    memset(other, 0xA5, ROOM);
    return differ("image_make", size, room, image_make(version, payload, size, one, room),
                  independent_image_make(version, payload, size, other, room));
}

/* One payload length: made with room, without, as version 0; read back with room, without, cut and damaged. */
static int one_length(size_t size)
{
    size_t records = size == 0 ? 1 : (size + 111) / 112, whole = records * 128, payload_room = records * 112;
    uint64_t version = (uint64_t)size * 0x9E3779B97F4A7C15u + 1;

    if (make_both(0, size, whole) || make_both(0, size, 0) || make_both(version, size, whole - 1) || make_both(version, size, 0)
        || make_both(version, size, ROOM) || make_both(version, size, whole))
        return 1;
    if (size > FULL)
        return 0;
    memcpy(image, one, ROOM);
    if (read_both(whole, payload_room) || read_both(whole, ROOM) || read_both(whole, payload_room - 1) || read_both(whole - 1, ROOM)
        || read_both(whole - 128, ROOM))
        return 1;
    image[size * 31 % whole] ^= (uint8_t)(1 + size % 255);
    return read_both(whole, ROOM) || read_both(whole, 0);
}

static int32_t none(void) { return 0; }
static int32_t library_make(void) { return image_make(7, payload, FULL, one, ROOM); }
static int32_t independent_make(void) { return independent_image_make(7, payload, FULL, one, ROOM); }
static int32_t library_read(void) { return image_read(image, MODULE_AREA_SIZE, one, ROOM); }
static int32_t independent_read(void) { return independent_image_read(image, MODULE_AREA_SIZE, one, ROOM); }

static int count(const char *what, const char *side, uint64_t times)
{
    int reads = strcmp(what, "read") == 0, library = strcmp(side, "library") == 0;
    int32_t (*work)(void) = strcmp(side, "none") == 0 ? none : reads ? (library ? library_read : independent_read)
                                                                     : (library ? library_make : independent_make);
    int32_t wanted = work == none ? 0 : reads ? FULL : MODULE_AREA_SIZE;

    if (independent_image_make(7, payload, FULL, image, ROOM) != MODULE_AREA_SIZE)
        return 1;
    for (; times > 0; times--)
        if (work() != wanted)
            return 1;
    return 0;
}

int main(int words, char **word)
{
    for (size_t i = 0; i < LONGEST; i++)
        payload[i] = (uint8_t)(7 * i + i / 112 * 31 + 1);
    if (words == 4)
        return count(word[1], word[2], strtoull(word[3], 0, 10));
    for (size_t size = 0; size <= LONGEST; size++)
        if (one_length(size))
            return 1;
    printf("images: payloads of 0 to %d bytes, made and read back alike\n", (int)LONGEST);
    return 0;
}
