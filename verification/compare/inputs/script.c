#include "script.h"

#include <stdlib.h>
#include <string.h>

enum { PRINTED = 198 }; /* the contents and bodies of a settings image */

void give_data(struct step *step, const uint8_t *bytes, size_t count)
{
    step->data = malloc(count + 1);
    if (step->data == NULL) {
        fputs("compare: no memory left\n", stderr);
        exit(2);
    }
    memcpy(step->data, bytes, count);
    step->data_size = count;
}

void free_steps(struct script *script)
{
    for (size_t i = 0; i < script->count; i++)
        free(script->steps[i].data);
    script->count = 0;
}

static void print_bytes(FILE *out, const struct step *step)
{
    fprintf(out, "%zu bytes", step->data_size);
    for (size_t i = 0; i < step->data_size && i < PRINTED; i++)
        fprintf(out, " %02X", step->data[i]);
    fputs(step->data_size > PRINTED ? " ..\n" : "\n", out);
}

void print_step(FILE *out, const struct step *step)
{
    unsigned number = (unsigned)step->number;
    switch (step->kind) {
    case SET_MAIN:
        fprintf(out, "MAIN := %zu bytes, pattern %u, seed %016llX\n", step->main_size, number,
                (unsigned long long)step->fill);
        break;
    case SET_WINDOW:
        fprintf(out, "window := noise, seed %016llX\n", (unsigned long long)step->fill);
        break;
    case SET_SETTINGS:
        fputs("settings := ", out);
        print_bytes(out, step);
        break;
    case SET_RECORD:
        fputs("record := ", out);
        print_bytes(out, step);
        break;
    case CALL_START:
        fprintf(out, "start: fuse %u, MAIN %zu, settings %zu, window %zu, record %zu\n", number, step->main_size,
                step->settings_size, step->window_size, step->record_size);
        break;
    case CALL_SESSION:
        fprintf(out, "call: wait %u, MAIN %zu, settings %zu, window %zu, record %zu, reply %zu, packet ", number,
                step->main_size, step->settings_size, step->window_size, step->record_size, step->reply_size);
        print_bytes(out, step);
        break;
    case CALL_READ:
        fprintf(out, "settings read: image %zu, fields %zu\n", step->settings_size, step->fields_size);
        break;
    case CALL_WRITE:
        fprintf(out, "settings write: image %zu, fields ", step->settings_size);
        print_bytes(out, step);
        break;
    case CALL_TO_2:
    case CALL_TO_1:
        fprintf(out, "move to form %d: image %zu\n", step->kind == CALL_TO_2 ? 2 : 1, step->settings_size);
        break;
    case CALL_MEND:
        fprintf(out, "mend: image %zu, counts %zu\n", step->settings_size, step->fields_size);
        break;
    case CALL_RATE:
        fprintf(out, "rate: id %u\n", number);
        break;
    }
}
