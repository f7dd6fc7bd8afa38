// The header in C++17: a world of two ranks, each called from a thread of its own.
#include "ulfm.h"

#include <cstdio>
#include <thread>

int main()
{
    ulfm_handle outside = ULFM_HANDLE_NULL, ranks[2] = {ULFM_HANDLE_NULL, ULFM_HANDLE_NULL};
    int code = ulfm_open(2, 2, 3, &outside, ranks, 2);
    if (code != ULFM_SUCCESS)
        return std::printf("open: %s\n", ulfm_strerror(code)), 1;
    ulfm_flag flags[2] = {6, 3};
    std::uint16_t made[2] = {0, 0};
    int codes[2] = {-1, -1};
    std::thread threads[2];
    for (int at = 0; at < 2; at++)
        threads[at] = std::thread([&, at] {
            codes[at] = ulfm_agree(&ranks[at], ULFM_COMM_WORLD, &flags[at]);
            if (codes[at] == ULFM_SUCCESS)
                codes[at] = ulfm_shrink(&ranks[at], ULFM_COMM_WORLD, &made[at]);
            if (codes[at] == ULFM_SUCCESS)
                codes[at] = ulfm_barrier(&ranks[at], made[at]);
        });
    for (auto &thread : threads)
        thread.join();
    for (int at = 0; at < 2; at++)
        std::printf("%s, flag %u, communicator %u\n", ulfm_strerror(codes[at]), unsigned(flags[at]), unsigned(made[at]));
    return ulfm_close(&ranks[0]) + ulfm_close(&ranks[1]) + ulfm_close(&outside);
}
