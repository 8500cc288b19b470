#ifndef FUNCTIONS_H
#define FUNCTIONS_H

#include "bhorelmu.h"
#include "model.h"

/*
 * A part's loader as a table of its functions, so that the library and the model can be called by the same code. With
 * AM13E230X defined they are that part's: the window goes nowhere, and what it has not is NULL.
 */
struct loader_functions {
    uint64_t (*start)(uint32_t, const uint8_t *, size_t, const uint8_t *, size_t, const uint8_t *, size_t, uint8_t *,
                      size_t);
    uint64_t (*call)(uint8_t *, size_t, uint8_t *, size_t, uint8_t *, size_t, uint8_t *, size_t, uint32_t,
                     const uint8_t *, size_t, uint8_t *, size_t);
    uint64_t (*settings_read)(const uint8_t *, size_t, uint8_t *, size_t);
    uint64_t (*settings_write)(const uint8_t *, size_t, uint8_t *, size_t);
    uint64_t (*settings_to_form_2)(uint8_t *, size_t);
    uint64_t (*settings_to_form_1)(uint8_t *, size_t);
    uint64_t (*settings_mend)(uint8_t *, size_t, uint8_t *, size_t);
    uint32_t (*rate)(uint32_t);
};

#ifdef AM13E230X

/* Start and call of a side, as if they were lent a window. */
#define WITHOUT_WINDOW(side) \
    static uint64_t side##_start_without(uint32_t fuse, const uint8_t *main_flash, size_t main_size, \
                                         const uint8_t *settings, size_t settings_size, const uint8_t *window, \
                                         size_t window_size, uint8_t *record, size_t record_size) \
    { \
        (void)window, (void)window_size; \
        return side##_am13e230x_start(fuse, main_flash, main_size, settings, settings_size, record, record_size); \
    } \
    static uint64_t side##_call_without(uint8_t *record, size_t record_size, uint8_t *main_flash, size_t main_size, \
                                        uint8_t *settings, size_t settings_size, uint8_t *window, size_t window_size, \
                                        uint32_t wait, const uint8_t *packet, size_t packet_size, uint8_t *reply, \
                                        size_t reply_size) \
    { \
        (void)window, (void)window_size; \
        return side##_am13e230x_call(record, record_size, main_flash, main_size, settings, settings_size, wait, packet, \
                                     packet_size, reply, reply_size); \
    }

WITHOUT_WINDOW(bhorelmu)
WITHOUT_WINDOW(model)

#define FUNCTIONS_OF(side) \
    { \
        side##_start_without, side##_call_without, side##_am13e230x_settings_read, side##_am13e230x_settings_write, NULL, \
            NULL, NULL, side##_am13e230x_rate \
    }

#else

#define FUNCTIONS_OF(side) \
    { \
        side##_start, side##_call, side##_settings_read, side##_settings_write, side##_settings_to_form_2, \
            side##_settings_to_form_1, side##_settings_mend, side##_rate \
    }

#endif

static const struct loader_functions product_functions = FUNCTIONS_OF(bhorelmu);
static const struct loader_functions model_functions = FUNCTIONS_OF(model);

#endif
