/*
 * The library beside the model, case by case.
 *
 *     calls agree    makes every case on all sides, which must answer and leave the same
 *     calls time     nanoseconds a call: name, detail, bytes, only a size, ours, the model's by gcc and by clang
 *     calls count    each call once, between two marks, for bench/count.py: side, name, detail
 *     calls places   likewise an Unlock that is wrong in one byte, for each of its places: side, place
 */
#include "mark.h"
#include "sides.h"
#include "turns.h"

#include <stdio.h>
#include <string.h>

enum { CASES_MOST = 128, PASSES = 40, TURNS = 25 };

static struct board fresh;
static struct side sides[SIDES];

static void begin_case(const struct bench_case *bench_case)
{
    memset(&fresh, 0, sizeof fresh);
    make_board(bench_case, &fresh);
    for (int which = 0; which < SIDES; which++) {
        begin(&sides[which], which, bench_case, &fresh);
        renew_records(&sides[which], CALLS_MOST);
    }
}

static bool case_agrees(const struct bench_case *bench_case)
{
    enum { CALLS = 3 };
    begin_case(bench_case);
    for (int which = 0; which < NOTHING; which++)
        make_calls(&sides[which], CALLS);
    for (int which = 0; which < NOTHING; which++)
        if (!sides_agree(&sides[which], &sides[GCC], CALLS)) {
            fprintf(stderr, "%s, %s: %s differs from the model, or answers otherwise than the case says (%016llX)\n",
                    bench_case->name, bench_case->detail, side_names[which],
                    (unsigned long long)sides[which].answers[0]);
            return false;
        }
    return true;
}

static bool all_agree(void)
{
    bool agree = true;
    for (size_t i = 0; i < bench_case_count; i++)
        agree = case_agrees(&bench_cases[i]) && agree;
    for (uint32_t place = 0; place < PASSWORD_SIZE; place++) {
        struct bench_case wrong = wrong_at(place);
        agree = case_agrees(&wrong) && agree;
    }
    return agree;
}

static void time_case(const struct bench_case *bench_case, double *best)
{
    struct contender contenders[SIDES];
    begin_case(bench_case);
    for (int which = 0; which < SIDES; which++)
        contenders[which] = (struct contender){renew_records, make_calls, &sides[which], best[which]};
    take_turns(contenders, SIDES, calls_in_a_turn(contenders, SIDES, CALLS_MOST), TURNS);
    for (int which = 0; which < SIDES; which++)
        best[which] = contenders[which].best;
}

/* Many passes over all cases, so that none of them falls into a busy time as a whole. */
static void time_all(void)
{
    static double best[CASES_MOST][SIDES];
    for (size_t i = 0; i < bench_case_count; i++)
        for (int which = 0; which < SIDES; which++)
            best[i][which] = 1e18;
    for (int pass = 0; pass < PASSES; pass++)
        for (size_t i = 0; i < bench_case_count; i++)
            time_case(&bench_cases[i], best[i]);
    for (size_t i = 0; i < bench_case_count; i++) {
        printf("%s\t%s\t%zu\t%d", bench_cases[i].name, bench_cases[i].detail, bench_cases[i].bytes,
               bench_cases[i].only_a_size);
        for (int which = 0; which < NOTHING; which++)
            printf("\t%.2f", best[i][which] - best[i][NOTHING]);
        printf("\n");
    }
}

static void count_one(int which)
{
    mark();
    make_calls(&sides[which], 1);
    mark();
}

static void count_all(void)
{
    for (size_t i = 0; i < bench_case_count; i++) {
        begin_case(&bench_cases[i]);
        for (int which = 0; which < NOTHING; which++) {
            printf("%s\t%s\t%s\n", side_names[which], bench_cases[i].name, bench_cases[i].detail);
            count_one(which);
        }
    }
}

static void count_places(void)
{
    for (uint32_t place = 0; place < PASSWORD_SIZE; place++) {
        struct bench_case wrong = wrong_at(place);
        begin_case(&wrong);
        for (int which = 0; which < NOTHING; which++) {
            printf("%s\t%u\n", side_names[which], (unsigned)place);
            count_one(which);
        }
    }
}

int main(int count, char **words)
{
    if (count != 2 || bench_case_count > CASES_MOST)
        return 2;
    if (strcmp(words[1], "agree") == 0)
        return all_agree() ? 0 : 1;
    if (strcmp(words[1], "time") == 0)
        time_all();
    if (strcmp(words[1], "count") == 0)
        count_all();
    if (strcmp(words[1], "places") == 0)
        count_places();
    return 0;
}
