#ifndef MARK_H
#define MARK_H

/*
 * Does nothing. Stands before and after the one call that is counted: bench/count.py knows its address, and counts what is
 * executed between two marks outside of the section that bench/programs/measuring/apart.ld makes of these programs.
 */
void mark(void);

#endif
