/* C11 section 7.19, but for wide characters. */
#ifndef KIT_HEADERS_STDDEF_H
#define KIT_HEADERS_STDDEF_H

typedef __SIZE_TYPE__ size_t;
typedef __PTRDIFF_TYPE__ ptrdiff_t;

#define NULL ((void *)0)
#define offsetof(type, member) __builtin_offsetof(type, member)

#endif
