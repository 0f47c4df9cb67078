/* What the tests use of C's string.h (see stdio.h here). */
#ifndef TESTS_STRING_H
#define TESTS_STRING_H
void *memcpy(void *to, const void *from, __SIZE_TYPE__ count);
void *memmove(void *to, const void *from, __SIZE_TYPE__ count);
void *memset(void *to, int byte, __SIZE_TYPE__ count);
int memcmp(const void *a, const void *b, __SIZE_TYPE__ count);
void *memchr(const void *in, int byte, __SIZE_TYPE__ count);
int strcmp(const char *a, const char *b);
__SIZE_TYPE__ strlen(const char *text);
#endif
