/* Stands in for <time.h> where the kit's compiler, which brings no headers, compiles the C files: what they use of it. */
struct timespec {
    long tv_sec, tv_nsec;
};
#define CLOCK_MONOTONIC 1
int clock_gettime(int clock, struct timespec *time);
