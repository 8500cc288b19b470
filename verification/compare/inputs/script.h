#ifndef SCRIPT_H
#define SCRIPT_H

#include <stdbool.h>
#include <stddef.h>
#include <stdint.h>
#include <stdio.h>

/* What is done to the two loaders, step by step. A script holds all it needs, so that it can be run again in part. */

enum step_kind {
    SET_MAIN,     /* MAIN gets new contents: `number` is the pattern, `fill` its seed */
    SET_WINDOW,   /* the window gets noise, `fill` is its seed */
    SET_SETTINGS, /* the settings flash gets `data` */
    SET_RECORD,   /* the record area gets `data` */
    CALL_START,   /* `number` is the fuse */
    CALL_SESSION, /* `number` is the wait, `data` the packet */
    CALL_READ,    /* the settings reader, on the settings flash */
    CALL_WRITE,   /* the settings writer, from fields `data` to the settings flash */
    CALL_TO_2,    /* the moves, on the settings flash */
    CALL_TO_1,
    CALL_MEND,    /* mending, on the settings flash; the counts go into the fields area */
    CALL_RATE     /* `number` is the id */
};

struct step {
    enum step_kind kind;
    uint32_t number;
    uint64_t fill; /* seeds the bytes that the areas to be written hold beforehand; 0: as they are */
    size_t main_size, settings_size, window_size, record_size, reply_size, fields_size; /* as lent */
    size_t data_size;
    uint8_t *data;
};

enum { SCRIPT_ROOM = 512 };

struct script {
    uint64_t seed;
    size_t count;
    struct step steps[SCRIPT_ROOM];
};

static inline bool is_call(const struct step *step)
{
    return step->kind >= CALL_START;
}

/* The step's data becomes a copy of these bytes. */
void give_data(struct step *step, const uint8_t *bytes, size_t count);

void print_step(FILE *out, const struct step *step);
void free_steps(struct script *script);

#endif
