#ifndef SHRINK_H
#define SHRINK_H

#include "script.h"

/* Tells of a script whose last step made a difference: what it was, and the fewest steps found that still show one. */
void report_difference(FILE *out, struct script *script);

#endif
