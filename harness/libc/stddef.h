/* The kit has a C library and no headers for it: this folder declares the little of it that the harness uses. */
#ifndef STDDEF_H
#define STDDEF_H
typedef __SIZE_TYPE__ size_t;
#define NULL ((void *)0)
#endif
