/* As much of the C library's header as the module's header and the programs under tests/ use. */
#ifndef STDDEF_H
#define STDDEF_H

typedef __SIZE_TYPE__ size_t;

#endif
