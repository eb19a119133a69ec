/* See stdio.h beside this file. */
#ifndef DW_LIBC_STRING_H
#define DW_LIBC_STRING_H

void *memcpy(void *restrict to, const void *restrict from, __SIZE_TYPE__ count);
void *memset(void *to, int byte, __SIZE_TYPE__ count);
int memcmp(const void *one, const void *other, __SIZE_TYPE__ count);

#endif
