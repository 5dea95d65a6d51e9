/* What of the C header of this name the programs here use. */
#ifndef HEADERS_TIME
#define HEADERS_TIME
struct timespec {
    long tv_sec;
    long tv_nsec;
};
#define CLOCK_PROCESS_CPUTIME_ID 2
int clock_gettime(int clock, struct timespec *time);
#endif
