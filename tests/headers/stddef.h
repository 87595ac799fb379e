/* Stands in for <stddef.h> where the kit's compiler, which brings no headers, compiles the C files. */
typedef __SIZE_TYPE__ size_t;
#ifdef __cplusplus
#define NULL 0
#else
#define NULL ((void *)0)
#endif
#define offsetof(type, field) __builtin_offsetof(type, field)
