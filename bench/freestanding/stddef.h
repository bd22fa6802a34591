/* The same: what include/ploverdell.h takes from <stddef.h>. */
typedef __SIZE_TYPE__ size_t;
