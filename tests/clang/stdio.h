/* As much of the C library's header as the programs under tests/ and examples/ use: the kit's clang comes without header files. */
#ifndef STDIO_H
#define STDIO_H

typedef struct file FILE;
extern FILE *stdin, *stdout, *stderr;
#define NULL ((void *)0)

FILE *fopen(const char *name, const char *mode);
int fclose(FILE *file);
int fflush(FILE *file);
int ferror(FILE *file);
__SIZE_TYPE__ fread(void *to, __SIZE_TYPE__ size, __SIZE_TYPE__ count, FILE *file);
__SIZE_TYPE__ fwrite(const void *from, __SIZE_TYPE__ size, __SIZE_TYPE__ count, FILE *file);
int fputs(const char *text, FILE *file);
int fprintf(FILE *file, const char *format, ...);
int printf(const char *format, ...);

int strcmp(const char *one, const char *other);

#endif
