#include "mark.h"

void mark(void)
{
}
