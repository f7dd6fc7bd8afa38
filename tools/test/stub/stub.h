/* What the test's program asks of the stub besides MPI. */
#ifndef STUB_H
#define STUB_H

#include <stddef.h>

/* Ends this process as one that has failed. */
void stub_die(void);

/* How many bytes the shared file must have. */
size_t stub_size(void);

#endif
