/* Stands in for <stdlib.h> where the kit's compiler, which brings no headers, compiles the C files: what they use of it. */
typedef __SIZE_TYPE__ size_t;
int atoi(const char *text);
void qsort(void *items, size_t count, size_t size, int (*compare)(const void *, const void *));
