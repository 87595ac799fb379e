/* Stands in for <stdio.h> where the kit's compiler, which brings no headers, compiles the C files: what they use of it. */
typedef __SIZE_TYPE__ size_t;
typedef struct _IO_FILE FILE;
extern FILE *stdout;
extern FILE *stderr;
FILE *fopen(const char *name, const char *mode);
size_t fread(void *bytes, size_t size, size_t count, FILE *file);
size_t fwrite(const void *bytes, size_t size, size_t count, FILE *file);
int ferror(FILE *file);
int fflush(FILE *file);
int fclose(FILE *file);
int printf(const char *format, ...);
int fprintf(FILE *file, const char *format, ...);
int snprintf(char *out, size_t room, const char *format, ...);
