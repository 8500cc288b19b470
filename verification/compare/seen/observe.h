#ifndef OBSERVE_H
#define OBSERVE_H

#include "finding.h"
#include "script.h"
#include "sides.h"

/* Counts what one call has shown, from its step, what it found, and the model's areas after it. */
void observe(const struct step *step, const struct finding *found, const struct side *after);

#endif
