#include "shrink.h"

#include "sides.h"

#include <stdlib.h>

static struct sides sides;

/* Runs a script from the beginning; the steps after the first difference are not needed and leave the script. */
static bool still_differs(struct script *script)
{
    clear_sides(&sides, script->seed);
    for (size_t i = 0; i < script->count; i++) {
        take_step(&sides, &script->steps[i]);
        if (!sides_agree(&sides)) {
            script->count = i + 1;
            return true;
        }
    }
    return false;
}

static void drop(struct script *script, size_t at)
{
    script->count--;
    for (size_t i = at; i < script->count; i++)
        script->steps[i] = script->steps[i + 1];
}

/* Tries without each step, from the last to the first. */
static bool drop_any(struct script *script)
{
    static struct script trial;
    bool dropped = false;
    for (size_t i = script->count; i-- > 0;) {
        if (i >= script->count)
            continue;
        trial = *script;
        drop(&trial, i);
        if (still_differs(&trial)) {
            *script = trial;
            dropped = true;
        }
    }
    return dropped;
}

/* Tries each wait, fuse and id at 0. */
static void zero_numbers(struct script *script)
{
    static struct script trial;
    for (size_t i = 0; i < script->count; i++) {
        trial = *script;
        trial.steps[i].number = 0;
        if (still_differs(&trial))
            *script = trial;
    }
}

static size_t calls_in(const struct script *script)
{
    size_t calls = 0;
    for (size_t i = 0; i < script->count; i++)
        calls += is_call(&script->steps[i]);
    return calls;
}

void report_difference(FILE *out, struct script *script)
{
    static struct script least;
    fprintf(out, "difference: seed %llu, call %zu\n", (unsigned long long)script->seed, calls_in(script));
    least = *script;
    if (!still_differs(&least)) {
        fputs("the same steps again make no difference: an answer depends on more than its areas\n", out);
        return;
    }
    do
        zero_numbers(&least);
    while (drop_any(&least));
    still_differs(&least);
    fprintf(out, "%zu of %zu steps are enough:\n", least.count, script->count);
    for (size_t i = 0; i < least.count; i++) {
        fprintf(out, "%3zu  ", i + 1);
        print_step(out, &least.steps[i]);
    }
    fputs("then:\n", out);
    print_differences(out, &sides);
}
