/* See stdio.h beside this file. The layout and the number are those of x86-64 Linux. */
#ifndef DW_LIBC_TIME_H
#define DW_LIBC_TIME_H

#define CLOCK_MONOTONIC 1

struct timespec {
    long tv_sec;
    long tv_nsec;
};

int clock_gettime(int clock, struct timespec *now);

#endif
