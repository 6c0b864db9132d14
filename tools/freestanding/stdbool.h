/* C11 section 7.18. */
#ifndef FREESTANDING_STDBOOL_H
#define FREESTANDING_STDBOOL_H

#define bool _Bool
#define true 1
#define false 0

#endif
