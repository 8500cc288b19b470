#ifndef BOARDS_H
#define BOARDS_H

#include "dice.h"
#include "script.h"

/* Random boards: MAIN sizes and contents, settings and images good and damaged, records valid and broken. */

/* A MAIN size that the rule allows, small ones more often. */
uint32_t choose_main_size(struct dice *dice);

/* A MAIN size to lend that is more often than not outside the rule. */
uint32_t choose_odd_main_size(struct dice *dice);

/* Settings that are allowed, as a record has them, then settings with a value in body 3 that is not. */
void choose_fields(struct dice *dice, uint32_t main_size, uint8_t *fields);
void break_fields(struct dice *dice, uint8_t *fields);

/* A form, and a name where it has one. */
void choose_form(struct dice *dice, uint8_t *fields);

/* Settings with both, as an image has them; broken, some of the three are not allowed. */
void choose_contents(struct dice *dice, uint32_t main_size, uint8_t *fields);
void break_contents(struct dice *dice, uint8_t *fields);

/* Steps that give the board new contents. */
struct step choose_main(struct dice *dice, uint32_t main_size);
struct step choose_window(struct dice *dice);
struct step choose_settings(struct dice *dice, uint32_t main_size);
struct step choose_record(struct dice *dice, uint32_t main_size);

#endif
