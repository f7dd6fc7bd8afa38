/* The entry by which the outside declares a rank failed. */
#include "ulfm.h"

#include <string.h>

int ulfm_failure_entry(uint16_t rank, ulfm_entry *entry)
{
    enum { KIND = 0, RANK = 8, A_FAILURE = 1 };
    if (rank >= ULFM_MAX_RANKS)
        return ULFM_ERR_RANK;
    memset(entry->bytes, 0, sizeof entry->bytes);
    entry->bytes[KIND] = A_FAILURE;
    entry->bytes[RANK] = (unsigned char)(rank % 256);
    entry->bytes[RANK + 1] = (unsigned char)(rank / 256);
    return ULFM_SUCCESS;
}
