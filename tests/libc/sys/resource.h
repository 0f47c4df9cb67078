/* What the tests use of glibc's sys/resource.h on x86-64 (see ../stdio.h). */
#ifndef TESTS_SYS_RESOURCE_H
#define TESTS_SYS_RESOURCE_H
#define RUSAGE_SELF 0
struct rusage {
    long times[4];
    long ru_maxrss;
    long rest[13];
};
int getrusage(int who, struct rusage *used);
#endif
