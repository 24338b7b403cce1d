/* As much of the C library's header as the programs under tests/ and examples/ use. */
#ifndef STRING_H
#define STRING_H

void *memcpy(void *to, const void *from, __SIZE_TYPE__ length);
void *memset(void *to, int byte, __SIZE_TYPE__ length);
int memcmp(const void *one, const void *other, __SIZE_TYPE__ length);
int strcmp(const char *one, const char *other);

#endif
