#ifndef MODEL_H
#define MODEL_H

#include <stddef.h>
#include <stdint.h>

/*
 * The loader of document 01 a second time, with the requests of document 02 that are built, in plain C and from the two
 * documents alone. verification/compare holds the product against it, and the speed figures are measured beside it. Areas,
 * records and answers are those of bhorelmu.h.
 */

/* The MSPM0's. */
uint64_t model_start(uint32_t fuse, const uint8_t *main_flash, size_t main_size, const uint8_t *settings,
                     size_t settings_size, const uint8_t *window, size_t window_size, uint8_t *record,
                     size_t record_size);
uint64_t model_call(uint8_t *record, size_t record_size, uint8_t *main_flash, size_t main_size, uint8_t *settings,
                    size_t settings_size, uint8_t *window, size_t window_size, uint32_t wait, const uint8_t *packet,
                    size_t packet_size, uint8_t *reply, size_t reply_size);
uint64_t model_settings_read(const uint8_t *image, size_t image_size, uint8_t *fields, size_t fields_size);
uint64_t model_settings_write(const uint8_t *fields, size_t fields_size, uint8_t *image, size_t image_size);
uint64_t model_settings_to_form_2(uint8_t *image, size_t image_size);
uint64_t model_settings_to_form_1(uint8_t *image, size_t image_size);
uint64_t model_settings_mend(uint8_t *image, size_t image_size, uint8_t *counts, size_t counts_size);
uint32_t model_rate(uint32_t id);

/* The AM13E230x's (T-10), where model.c is compiled with AM13E230X. */
uint64_t model_am13e230x_start(uint32_t fuse, const uint8_t *main_flash, size_t main_size, const uint8_t *settings,
                               size_t settings_size, uint8_t *record, size_t record_size);
uint64_t model_am13e230x_call(uint8_t *record, size_t record_size, uint8_t *main_flash, size_t main_size,
                              uint8_t *settings, size_t settings_size, uint32_t wait, const uint8_t *packet,
                              size_t packet_size, uint8_t *reply, size_t reply_size);
uint64_t model_am13e230x_settings_read(const uint8_t *image, size_t image_size, uint8_t *fields, size_t fields_size);
uint64_t model_am13e230x_settings_write(const uint8_t *fields, size_t fields_size, uint8_t *image, size_t image_size);
uint32_t model_am13e230x_rate(uint32_t id);

#endif
