#define _POSIX_C_SOURCE 199309L /* for the clock */
#include "turns.h"

#include <time.h>

static const double turn_wanted = 2e4; /* nanoseconds */

static double now(void)
{
    struct timespec time;
    clock_gettime(CLOCK_MONOTONIC, &time);
    return (double)time.tv_sec * 1e9 + (double)time.tv_nsec;
}

static double turn(const struct contender *contender, size_t calls)
{
    if (contender->prepare != NULL)
        contender->prepare(contender->subject, calls);
    double start = now();
    contender->run(contender->subject, calls);
    return now() - start;
}

static double slowest(struct contender *contenders, size_t count, size_t calls)
{
    double most = 0;
    for (size_t i = 0; i < count; i++) {
        double took = turn(&contenders[i], calls);
        if (took > most)
            most = took;
    }
    return most;
}

size_t calls_in_a_turn(struct contender *contenders, size_t count, size_t most)
{
    size_t calls = 1;
    slowest(contenders, count, calls); /* brings code and data into the caches */
    while (calls < most && slowest(contenders, count, calls) < turn_wanted)
        calls *= 2;
    return calls < most ? calls : most;
}

void take_turns(struct contender *contenders, size_t count, size_t calls, int turns)
{
    for (int t = 0; t < turns; t++)
        for (size_t i = 0; i < count; i++) {
            double took = turn(&contenders[i], calls) / (double)calls;
            if (took < contenders[i].best)
                contenders[i].best = took;
        }
}
