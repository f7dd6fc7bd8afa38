/* One rank agrees with itself: the smallest program that opens a world. */
#include <stdio.h>
#include <ulfm.h>

int main(void)
{
    ulfm_handle outside = ULFM_HANDLE_NULL, rank = ULFM_HANDLE_NULL;
    ulfm_flag flag = 12;
    int code = ulfm_open(1, 1, 2, &outside, &rank, 1);
    if (code == ULFM_SUCCESS)
        code = ulfm_agree(&rank, ULFM_COMM_WORLD, &flag);
    printf("%s, flag %u\n", ulfm_strerror(code), (unsigned)flag);
    return code;
}
