/* The kit's clang comes without headers. */
typedef __SIZE_TYPE__ size_t;
#define NULL ((void *)0)
