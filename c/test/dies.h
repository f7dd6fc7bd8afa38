/* A process that ends itself by SIGKILL just before its k-th access to words that processes share.
 *
 * All of a region is made inaccessible to this process alone. Each access then raises SIGSEGV; the handler counts it where its eight bytes
 * are among those that are shared, makes the region accessible, and lets the processor make that one instruction, behind which the
 * next trap closes the region again. So a call is cut off in its middle, before each of its atomic steps in turn. For x86-64 and Linux. */
#ifndef DIES_H
#define DIES_H

#include <signal.h>
#include <stdint.h>
#include <stdlib.h>
#include <sys/mman.h>
#include <sys/ucontext.h>
#include <unistd.h>

/* Which process has touched each eight bytes of the region, as bits by rank, in memory that all share. */
static struct watch {
    char *region;
    size_t size;
    _Atomic uint8_t *touched;
    uint8_t own;
    long dies_before, *count;
} watch;

enum { ONE_STEP = 0x100 }; /* the trap flag */

static void on_access(int signal_number, siginfo_t *info, void *context)
{
    char *at = info->si_addr;
    if (at < watch.region || at >= watch.region + watch.size) {
        signal(signal_number, SIG_DFL);
        return;
    }
    _Atomic uint8_t *touched = &watch.touched[(size_t)(at - watch.region) / 8];
    if (watch.dies_before == 0)
        *touched |= watch.own;
    else if ((*touched & (*touched - 1)) != 0 && ++*watch.count == watch.dies_before)
        kill(getpid(), SIGKILL);
    mprotect(watch.region, watch.size, PROT_READ | PROT_WRITE);
    ((ucontext_t *)context)->uc_mcontext.gregs[REG_EFL] |= ONE_STEP;
}

static void on_step(int signal_number, siginfo_t *info, void *context)
{
    (void)signal_number, (void)info;
    mprotect(watch.region, watch.size, PROT_NONE);
    ((ucontext_t *)context)->uc_mcontext.gregs[REG_EFL] &= ~(long long)ONE_STEP;
}

/* From here on. With dies_before 0 it lives, and notes what it touches. */
static void watch_begins(struct watch how)
{
    struct sigaction access = {.sa_sigaction = on_access, .sa_flags = SA_SIGINFO}, step = {.sa_sigaction = on_step, .sa_flags = SA_SIGINFO};
    watch = how;
    if (sigaction(SIGSEGV, &access, NULL) != 0 || sigaction(SIGTRAP, &step, NULL) != 0 ||
        mprotect(watch.region, watch.size, PROT_NONE) != 0)
        abort();
}

static void watch_ends(void)
{
    mprotect(watch.region, watch.size, PROT_READ | PROT_WRITE);
    signal(SIGSEGV, SIG_DFL);
}

#endif
