/* C11 section 7.18. */
#ifndef KIT_HEADERS_STDBOOL_H
#define KIT_HEADERS_STDBOOL_H

#define bool _Bool
#define true 1
#define false 0
#define __bool_true_false_are_defined 1

#endif
