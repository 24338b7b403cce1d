/* As much of the C library's header as the programs under tests/ use. */
#ifndef STDLIB_H
#define STDLIB_H

_Noreturn void abort(void);
__UINT64_TYPE__ strtoull(const char *text, char **end, int base);

#endif
