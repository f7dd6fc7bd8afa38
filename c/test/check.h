/* What the tests in C share: a check that tells its line, and a count of those that failed. */
#ifndef CHECK_H
#define CHECK_H

#include <stdio.h>

static int checked, wrong;

/* Compares two numbers, and says where they differ. */
#define EQUAL(found, wanted)                                                                                                    \
    do {                                                                                                                        \
        long long found_ = (long long)(found), wanted_ = (long long)(wanted);                                                   \
        checked++;                                                                                                              \
        if (found_ != wanted_) {                                                                                                \
            wrong++;                                                                                                            \
            printf("%s:%d: %s is %lld and not %lld\n", __FILE__, __LINE__, #found, found_, wanted_);                            \
        }                                                                                                                       \
    } while (0)

static int checks_end(void)
{
    printf("%d checks, %d wrong\n", checked, wrong);
    return wrong != 0;
}

#endif
