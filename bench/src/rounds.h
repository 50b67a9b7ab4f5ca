/*
 * Times side by side. A time is the median of the ratios of many rounds; a round runs each side for some milliseconds, one after the other, so
 * that what disturbs the machine for longer disturbs them alike.
 */
#include <stdlib.h>
#include <time.h>

#define ROUNDS 251
#define BATCH 2e-3 /* seconds of a side in a round, at least */
#define MOST_SIDES 3

/* So many turns of a side. */
typedef void (*turns_of)(int side, long count);

static double timed(turns_of turns, int side, long count)
{
    struct timespec begin, end;
    clock_gettime(CLOCK_MONOTONIC, &begin);
    turns(side, count);
    clock_gettime(CLOCK_MONOTONIC, &end);
    return (double)(end.tv_sec - begin.tv_sec) + 1e-9 * (double)(end.tv_nsec - begin.tv_nsec);
}

static int compared(const void *a, const void *b)
{
    double x = *(const double *)a, y = *(const double *)b;
    return (x > y) - (x < y);
}

/* The time of each of these sides by that of the first. */
static void medians(turns_of turns, int sides, double *of)
{
    static double ratios[MOST_SIDES][ROUNDS];
    long count[MOST_SIDES];
    for (int i = 0; i < sides; i++) {
        for (count[i] = 1; timed(turns, i, count[i]) < BATCH; count[i] *= 2) {
        }
    }
    for (int round = 0; round < ROUNDS; round++) {
        double times[MOST_SIDES];
        for (int i = 0; i < sides; i++) {
            times[i] = timed(turns, i, count[i]) / (double)count[i];
            ratios[i][round] = times[i] / times[0];
        }
    }
    for (int i = 0; i < sides; i++) {
        qsort(ratios[i], ROUNDS, sizeof ratios[i][0], compared);
        of[i] = ratios[i][ROUNDS / 2];
    }
}
