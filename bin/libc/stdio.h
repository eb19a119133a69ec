/* The little of C's library that the programs here use, declared for the kit's compiler, which brings no headers. */
#ifndef DW_LIBC_STDIO_H
#define DW_LIBC_STDIO_H

int printf(const char *format, ...);
int scanf(const char *format, ...);
int getchar(void);

#define EOF (-1)

#endif
