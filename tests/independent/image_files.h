/* Images in files: each gives the program's exit status. */
#ifndef IMAGE_FILES_H
#define IMAGE_FILES_H

#include "bytes.h"

/* Writes the image of a file's bytes to standard output. */
int image_make_file(uint64_t version, const char *payload_name);

/* Writes the payload of an image, with its padding, to standard output. */
int image_read_file(const char *image_name);

#endif
