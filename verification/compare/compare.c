/*
 * Holds the product (bhorelmu_*) against the model (model_*): random boards and sessions, every area and answer
 * compared after every call. It is compiled for one part: with AM13E230X for that one, else for the MSPM0.
 *
 *     compare SEEDS [FIRST_SEED [pairs]]
 *
 * A seed is a board and CALLS_A_SEED calls, and then a play on a pair of boards; with `pairs` it is the play alone. Ends with 0 where all agree, 1 at a difference, 2 for a wrong command line,
 * and 3 where a run of GATE_CALLS or more has missed something that it should have seen.
 */

#include "boards.h"
#include "coverage.h"
#include "dice.h"
#include "finding.h"
#include "observe.h"
#include "play.h"
#include "script.h"
#include "sessions.h"
#include "shrink.h"
#include "sides.h"
#include "wide.h"

#include <signal.h>
#include <stdlib.h>
#include <string.h>

enum { CALLS_A_SEED = 100, GATE_CALLS = 200000, SEEDS_A_LINE = 5000 };

static struct script script;

/* A loader that breaks down has made a difference too. */
static void break_down(int signal_number)
{
    printf("difference: seed %llu, signal %d at step %zu:\n", (unsigned long long)script.seed, signal_number,
           script.count);
    if (script.count > 0)
        print_step(stdout, &script.steps[script.count - 1]);
    fflush(stdout);
    _Exit(1);
}

/* Takes a new step and keeps it in the script. */
static bool step_agrees(struct sides *sides, struct step step)
{
    struct finding found = look(&step, &sides->model);
    script.steps[script.count++] = step;
    take_step(sides, &step);
    observe(&step, &found, &sides->model);
    return sides_agree(sides);
}

static bool seed_agrees(uint64_t seed)
{
    static struct sides sides;
    struct dice dice = {seed};
    uint32_t main_size = choose_main_size(&dice);
    script.seed = seed;
    clear_sides(&sides, seed);
    step_agrees(&sides, choose_main(&dice, main_size));
    if (WINDOW_BYTES > 0)
        step_agrees(&sides, choose_window(&dice));
    step_agrees(&sides, choose_settings(&dice, main_size));
    for (int calls = 0; calls < CALLS_A_SEED && script.count < SCRIPT_ROOM;) {
        if (!step_agrees(&sides, choose_step(&dice, main_size, &sides.model)))
            return false;
        calls += is_call(&script.steps[script.count - 1]);
    }
    return true;
}

/* What is done for a seed. */
static bool all_agree(uint64_t seed)
{
    if (!seed_agrees(seed)) {
        report_difference(stdout, &script);
        return false;
    }
    free_steps(&script);
    return play_agrees(seed);
}

static bool read_number(const char *text, uint64_t *number)
{
    char *end;
    *number = strtoull(text, &end, 10);
    return end != text && *end == '\0';
}

static int judge_coverage(uint64_t calls)
{
    print_coverage(stdout);
    if (calls >= GATE_CALLS)
        return print_unseen(stdout) == 0 ? 0 : 3;
    printf("\nfewer than %d calls: this run does not show that every case was seen\n", GATE_CALLS);
    return 0;
}

int main(int argc, char **argv)
{
    uint64_t seeds = 0, first = 1;
    bool pairs = argc == 4 && strcmp(argv[3], "pairs") == 0;
    if (argc < 2 || argc > 3 + pairs || !read_number(argv[1], &seeds) || (argc > 2 && !read_number(argv[2], &first))) {
        fputs("usage: compare SEEDS [FIRST_SEED [pairs]]\n", stderr);
        return 2;
    }
    signal(SIGSEGV, break_down);
    signal(SIGABRT, break_down);
    signal(SIGFPE, break_down);
    signal(SIGILL, break_down);
    for (uint64_t seed = first; seed - first < seeds; seed++) {
        if (pairs ? !play_agrees(seed) : !all_agree(seed))
            return 1;
        if ((seed - first + 1) % SEEDS_A_LINE == 0)
            fprintf(stderr, PART_NAME ": %llu calls agree\n", (unsigned long long)(seed - first + 1) * CALLS_A_SEED);
    }
    if (pairs)
        return 0;
    if (!wide_sizes_agree())
        return 1;
    int result = judge_coverage(seeds * CALLS_A_SEED);
    printf("\n" PART_NAME ": %llu calls of %llu seeds from %llu on agree\n", (unsigned long long)(seeds * CALLS_A_SEED),
           (unsigned long long)seeds, (unsigned long long)first);
    return result;
}
