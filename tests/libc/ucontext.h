/* What the tests use of glibc's ucontext.h on x86-64 (see stdio.h here): 968 bytes there, of which the tests set three. */
#ifndef TESTS_UCONTEXT_H
#define TESTS_UCONTEXT_H
typedef struct {
    void *ss_sp;
    int ss_flags;
    __SIZE_TYPE__ ss_size;
} stack_t;
typedef struct ucontext_t {
    unsigned long uc_flags;
    struct ucontext_t *uc_link;
    stack_t uc_stack;
    unsigned long rest[122];
} ucontext_t;
int getcontext(ucontext_t *to);
void makecontext(ucontext_t *to, void (*call)(void), int count, ...);
int swapcontext(ucontext_t *from, const ucontext_t *to);
#endif
