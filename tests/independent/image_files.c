/* independent image make, independent image read. */
#include "files.h"
#include "image.h"
#include "image_files.h"

/* Reads a file, of which more than `room` bytes are not asked for. False if it cannot be read. */
static bool read_file(const char *name, uint8_t *bytes, size_t room, size_t *length)
{
    FILE *file = open_named(name);
    bool good = false;

    if (file != NULL) {
        *length = fread(bytes, 1, room, file);
        good = !ferror(file);
    }
    if (!good)
        complain(name, "cannot be read");
    close_named(file);
    return good;
}

static int write_out(const uint8_t *bytes, int32_t length)
{
    fwrite(bytes, 1, (size_t)length, stdout);
    if (fflush(stdout) == 0 && !ferror(stdout))
        return 0;
    fputs("independent: the bytes cannot be written\n", stderr);
    return 1;
}

int image_make_file(uint64_t version, const char *payload_name)
{
    static uint8_t payload[PAYLOAD_MOST + 1]; /* one more shows a payload that is too long */
    static uint8_t image[IMAGE_MOST];
    size_t length;

    if (!read_file(payload_name, payload, sizeof payload, &length))
        return 1;
    int32_t made = independent_image_make(version, payload, length, image, sizeof image);
    if (made >= 0)
        return write_out(image, made);
    fputs(made == MAKE_VERSION_0 ? "independent: version 0\n"
                                 : "independent: payload over 128 records\n", stderr);
    return 1;
}

int image_read_file(const char *image_name)
{
    static uint8_t image[IMAGE_MOST + 1];
    static uint8_t payload[PAYLOAD_MOST];
    size_t length;

    if (!read_file(image_name, image, sizeof image, &length))
        return 1;
    int32_t got = independent_image_read(image, length, payload, sizeof payload);
    if (got >= 0)
        return write_out(payload, got);
    fputs("independent: not a good image\n", stderr);
    return 1;
}
