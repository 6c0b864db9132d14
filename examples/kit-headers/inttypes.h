/* C11 section 7.8, for the exact widths in decimal. */
#ifndef KIT_HEADERS_INTTYPES_H
#define KIT_HEADERS_INTTYPES_H

#include <stdint.h>

#define PRId8 "hhd"
#define PRId16 "hd"
#define PRId32 "d"
#define PRId64 "ld"
#define PRIu8 "hhu"
#define PRIu16 "hu"
#define PRIu32 "u"
#define PRIu64 "lu"

#endif
