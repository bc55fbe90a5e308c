/* What desk/ needs of C's headers, for a machine that has no C library of the target's. */
#pragma once
typedef __SIZE_TYPE__ size_t;
#ifdef __cplusplus
#define NULL nullptr
#else
#define NULL ((void *)0)
#endif
