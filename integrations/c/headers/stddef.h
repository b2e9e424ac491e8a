/* For a compiler that has no headers of its own. */
#ifndef FEW_STDDEF_H
#define FEW_STDDEF_H
typedef __SIZE_TYPE__ size_t;
#define NULL ((void *)0)
#endif
