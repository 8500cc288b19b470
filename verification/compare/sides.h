#ifndef SIDES_H
#define SIDES_H

#include "script.h"
#include "wire.h"

/* The two loaders side by side, each with areas of its own that hold the same bytes before every call. */

enum area { AREA_MAIN, AREA_SETTINGS, AREA_WINDOW, AREA_RECORD, AREA_REPLY, AREA_FIELDS, AREA_PACKET, AREAS };

enum { MAIN_ROOM = MAIN_LARGEST + 3 * SECTOR, SETTINGS_ROOM = 4096, WINDOW_ROOM = 4096 };
enum { RECORD_ROOM = 256, REPLY_ROOM = 4096 };
enum { FIELDS_ROOM = 256, PACKET_ROOM = 65536 + 64 };

struct side {
    uint8_t *area[AREAS];
    uint64_t answer;
};

struct sides {
    struct side product, model;
    size_t main_used, packet_used; /* the most bytes of these areas that were lent or set so far */
};

/* Areas of zeros. The seed also says how far the areas stand from an even address. */
void clear_sides(struct sides *sides, uint64_t seed);

/* Does a step to both sides. */
void take_step(struct sides *sides, const struct step *step);

/* Whether answers and all areas are the same, the bytes around the areas included. */
bool sides_agree(const struct sides *sides);

void print_differences(FILE *out, const struct sides *sides);

#endif
