/* What the tests use of C's stdio.h. The kit's compiler comes without headers; C's library itself is there when a program runs. */
#ifndef TESTS_STDIO_H
#define TESTS_STDIO_H
typedef struct _IO_FILE FILE;
extern FILE *stdin, *stdout, *stderr;
int printf(const char *form, ...);
int fprintf(FILE *file, const char *form, ...);
int puts(const char *text);
void perror(const char *text);
FILE *fopen(const char *path, const char *mode);
int fclose(FILE *file);
int ferror(FILE *file);
int fflush(FILE *file);
__SIZE_TYPE__ fread(void *to, __SIZE_TYPE__ size, __SIZE_TYPE__ count, FILE *file);
__SIZE_TYPE__ fwrite(const void *from, __SIZE_TYPE__ size, __SIZE_TYPE__ count, FILE *file);
#endif
