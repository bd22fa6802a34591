/* The types that include/ploverdell.h takes from here, for a compiler that has no C library's headers (tools/stack). */
typedef __UINT8_TYPE__ uint8_t;
typedef __UINT64_TYPE__ uint64_t;
typedef __INT64_TYPE__ int64_t;
