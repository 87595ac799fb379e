/* Stands in for <stdbool.h> where the kit's compiler, which brings no headers, compiles the C files. */
#ifndef __cplusplus
#define bool _Bool
#define true 1
#define false 0
#endif
