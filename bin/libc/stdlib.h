/* See stdio.h beside this file. */
#ifndef DW_LIBC_STDLIB_H
#define DW_LIBC_STDLIB_H

void qsort(void *base, __SIZE_TYPE__ count, __SIZE_TYPE__ size, int (*order)(const void *, const void *));

#endif
