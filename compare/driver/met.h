/* What was met, at the end of the comparison. */
#ifndef MET_H
#define MET_H

#include "drive.h"

/* Prints how often each was met; ends the program if something never was. */
void print_all_met(const struct drive *drive);

#endif
