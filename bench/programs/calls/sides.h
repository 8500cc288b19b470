#ifndef SIDES_H
#define SIDES_H

#include "cases.h"

/* The library, the model by two compilers, and a side that answers at once, whose time is that of the measuring. */
enum which { OURS, GCC, CLANG, NOTHING, SIDES };

extern const char *const side_names[SIDES];
extern const struct loader_functions *const clang_functions; /* of bench/programs/rivals/model_by_clang.c */

enum { CALLS_MOST = 128, RECORD_ROOM = 128 };

struct side {
    const struct bench_case *bench_case;
    const struct loader_functions *functions;
    const struct board *fresh;
    struct board now;
    AREA reply[REPLY_SIZE];
    AREA records[CALLS_MOST][RECORD_ROOM];
    uint64_t answers[CALLS_MOST];
};

/* Gives a side the areas of a case. */
void begin(struct side *side, enum which which, const struct bench_case *bench_case, const struct board *fresh);

/*
 * New records for the next calls, a record for each call. Nothing else is made new: a second call of a case finds the
 * flash that the first has left, and does to it the same once more.
 */
void renew_records(void *side, size_t calls);

void make_calls(void *side, size_t calls);

/* Whether a side has answered as the model and as the case says, and left the same in every area. */
bool sides_agree(const struct side *side, const struct side *model, size_t calls);

#endif
