/* What the tests use of C's stdlib.h (see stdio.h here). */
#ifndef TESTS_STDLIB_H
#define TESTS_STDLIB_H
int atoi(const char *text);
long atol(const char *text);
_Noreturn void exit(int status);
#endif
