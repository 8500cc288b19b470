/* The model once more, under names of its own: bench/building/programs.sh has this file compiled by the toolchain's own clang. */
#define model_start clang_start
#define model_call clang_call
#define model_settings_read clang_settings_read
#define model_settings_write clang_settings_write
#define model_settings_to_form_2 clang_settings_to_form_2
#define model_settings_to_form_1 clang_settings_to_form_1
#define model_settings_mend clang_settings_mend
#define model_rate clang_rate
#define model_am13e230x_start clang_am13e230x_start
#define model_am13e230x_call clang_am13e230x_call
#define model_am13e230x_settings_read clang_am13e230x_settings_read
#define model_am13e230x_settings_write clang_am13e230x_settings_write
#define model_am13e230x_rate clang_am13e230x_rate
#define model_functions names_by_clang

#include "verification/model/model.c"

#include "verification/model/functions.h"

const struct loader_functions *const clang_functions = &names_by_clang;
