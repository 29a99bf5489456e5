/* What the library has beside the proved archive: the functions of bwtree.h under their own names, for languages that read no header; its version; and waits. */
#define _POSIX_C_SOURCE 200809L
#define BWTREE_INLINE
#include "bwtree.h"
#include "bwtree_waits.h"
#include <sched.h>
#include <time.h>

/* Tests build a library of another version. */
#ifndef BWTREE_BUILT_AS
#define BWTREE_BUILT_AS BWTREE_VERSION
#endif

const char *bwtree_version(void) {
    return BWTREE_BUILT_AS;
}

/* Reads three numbers with points between them, of at most four digits each; 1 where that is all of the text. */
static int read_version(const char *text, unsigned *numbers) {
    for (int i = 0; i < 3; i++) {
        int digits = 0;
        if (i && *text++ != '.') return 0;
        for (numbers[i] = 0; *text >= '0' && *text <= '9' && digits < 4; digits++) numbers[i] = 10 * numbers[i] + (unsigned)(*text++ - '0');
        if (!digits) return 0;
    }
    return *text == 0;
}

int bwtree_goes_with(const char *version) {
    unsigned theirs[3], ours[3];
    if (!version || !read_version(version, theirs) || !read_version(BWTREE_BUILT_AS, ours) || theirs[0] != ours[0]) return 0;
    if (ours[0] == 0) return theirs[1] == ours[1] && theirs[2] <= ours[2];
    return theirs[1] < ours[1] || (theirs[1] == ours[1] && theirs[2] <= ours[2]);
}

/* Nanoseconds of a clock that only goes on. */
static uint64_t now(void) {
    struct timespec time;
    clock_gettime(CLOCK_MONOTONIC, &time);
    return (uint64_t)time.tv_sec * 1000000000u + (uint64_t)time.tv_nsec;
}

void bwtree_wait_begin(bwtree_wait *wait, uint64_t nanoseconds) {
    uint64_t begin;
    if (!wait) return;
    begin = now();
    wait->until_ = nanoseconds < UINT64_MAX - begin ? begin + nanoseconds : UINT64_MAX;
    wait->pauses_ = 0;
}

int bwtree_wait_again(bwtree_wait *wait) {
    enum { YIELDS = 8, DOUBLINGS = 7, SHORTEST = 50000, LONGEST = 5000000 };
    uint64_t at, pause, doublings;
    struct timespec sleep;
    if (!wait || (at = now()) >= wait->until_) return 0;
    if (wait->pauses_++ < YIELDS) {
        sched_yield();
        return 1;
    }
    doublings = wait->pauses_ - 1 - YIELDS;
    pause = doublings < DOUBLINGS ? (uint64_t)SHORTEST << doublings : LONGEST;
    if (pause > wait->until_ - at) pause = wait->until_ - at;
    sleep.tv_sec = 0;
    sleep.tv_nsec = (long)pause;
    nanosleep(&sleep, NULL);
    return 1;
}
