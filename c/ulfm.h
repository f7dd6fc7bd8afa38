/* ulfm.h: a proved agreement core of a fault tolerant MPI, for C and C++.
 *
 * A world has ranks 0 to N - 1. ulfm_open fills in one handle for each rank, and one for the outside, by which a failure
 * detector declares ranks failed. A declaration is for good. Communicators are small numbers: 0 is that of all ranks, and each
 * shrink makes one more. No call waits or takes a lock, but for those at the end of this file, which are loops over ulfm_poll.
 *
 * Conventions, as in mpi.h: each call answers an int, 0 where it succeeded; what it tells is written through its last
 * parameters, and only where the answer is 0, unless the call's comment says otherwise. A call that answers a code from 1 to 6 or
 * 12 to 22 has started nothing and ended nothing: a request that was open is still open. Codes 7 to 11 come from a poll and end its
 * request. A loop at the end of this file is a start and its polls: where a poll answers such a code, the start has been made. After
 * 23 the replica, a rank whose world is replayed from a log (docs/STORE.md), serves for nothing more.
 *
 * PROVED, for each call that isn't marked "in C" and whose caller keeps the rules below: it is safe, it returns, and it makes no
 * more atomic steps than its comment says. What it answers is an answer of the specification at one point of one growing history
 * of the world (docs/PROVED.md says which contracts those are, docs/C.md how far they reach here).
 *
 * IN C, and not proved: the loops that wait, ulfm_strerror, ulfm_failure_entry, worlds in shared memory, and this header's agreement
 * with the library, which a test compares.
 *
 * RULES FOR THE CALLER. Nothing checks these; what breaks one is undefined:
 *   1. A handle begins as ULFM_HANDLE_NULL, is written by this library alone, and is never copied: pass its address.
 *   2. A handle is given to one call at a time, from whatever thread. Between two calls on one handle by different threads there
 *      is a thread's start or join, a lock, or a sequentially consistent atomic.
 *   3. No pointer is null, also where a length is 0. What a call is given by address no other thread touches during the call.
 *      Arrays have the length that is passed, and no two of them overlap.
 *   4. No call is made from a signal handler, or in a child that was forked of a process with threads. No call is left by longjmp or
 *      by cancelling its thread.
 *   5. malloc, realloc and free are one allocator's.
 *   6. A bool is 0 or 1.
 * CHECKED, and answered by a code: a handle that holds nothing (never opened, or closed), the outside's handle given as a rank's, a
 * number of handles that isn't that of the ranks, limits out of range, ranks and communicators that there aren't, requests that are
 * open or aren't, and want of memory.
 *
 * STEPS. A step is one atomic load or compare-exchange. N is the number of the world's ranks, M of its communicators, n of the
 * communicator's members, and v of the failures that the rank had seen. A rank that was refused by ULFM_ERR_SELF_FAILED before makes
 * no step.
 */
#ifndef ULFM_H
#define ULFM_H

#include <limits.h>
#include <stdbool.h>
#include <stddef.h>
#include <stdint.h>

#define ULFM_VERSION_MAJOR 0
#define ULFM_VERSION_MINOR 1
#define ULFM_VERSION_PATCH 0
#define ULFM_VERSION "0.1.0"

/* The greatest limits of a world. Its size, ranks + 2 * comms + 2 * comms * rounds * ranks, is at most ULFM_MAX_SIZE. */
#define ULFM_MAX_RANKS 1024
#define ULFM_MAX_COMMS 256
#define ULFM_MAX_ROUNDS 4096
#define ULFM_MAX_SIZE 4194304

/* The communicator of all ranks, as MPI_COMM_WORLD. */
#define ULFM_COMM_WORLD 0

#ifdef __cplusplus
#define ULFM_STATIC_ASSERT(what, text) static_assert(what, text)
#define ULFM_HANDLE_NULL {nullptr}
extern "C" {
#else
#define ULFM_STATIC_ASSERT(what, text) _Static_assert(what, text)
#define ULFM_HANDLE_NULL {NULL}
#endif

#if defined(__GNUC__)
#define ULFM_NONNULL __attribute__((nonnull))
#else
#define ULFM_NONNULL
#endif

/* A rank, or the outside. Its one field is the library's own; it begins as ULFM_HANDLE_NULL, or all bytes 0. */
typedef struct ulfm_handle {
    void *at;
} ulfm_handle;

/* The codes. Behind each stands MPI's error class where there is one. 1 to 15 are the library's refusals, by their numbers. */
enum ulfm_code {
    ULFM_SUCCESS = 0,             /* MPI_SUCCESS */
    ULFM_ERR_SELF_FAILED = 1,     /* this rank is declared failed, for good: stop its work and close it */
    ULFM_ERR_COMM = 2,            /* MPI_ERR_COMM: the rank doesn't hold the communicator */
    ULFM_ERR_BUSY = 3,            /* a request of the rank is open on it: poll until that is answered */
    ULFM_ERR_SHRINK_OPEN = 4,     /* a shrink of the rank is open on another communicator */
    ULFM_ERR_ROUNDS_USED_UP = 5,  /* no round is left, or for an agree only the last, which is kept for a shrink */
    ULFM_ERR_IDLE = 6,            /* MPI_ERR_REQUEST: nothing is open on the communicator */
    ULFM_ERR_MISMATCH = 7,        /* some agreed and others shrank in this round. Ends the request */
    ULFM_ERR_NO_CONTEXT = 8,      /* no context id is free at every contributor. Ends the request */
    ULFM_ERR_NO_ROOM = 9,         /* all communicators were made. Ends the request */
    ULFM_ERR_REVOKED = 10,        /* MPIX_ERR_REVOKED, of a barrier. Ends the request */
    ULFM_ERR_PROC_FAILED = 11,    /* MPIX_ERR_PROC_FAILED. Of a barrier's poll: a member that failed hasn't arrived; ends the
                                     request. Of ulfm_agree: the error is raised, at all members alike */
    ULFM_ERR_WORLD_KEPT = 12,     /* communicator 0 isn't given back */
    ULFM_ERR_RANK = 13,           /* MPI_ERR_RANK: the world has no such rank */
    ULFM_ERR_NO_MEM = 14,         /* MPI_ERR_NO_MEM: free some, and make the same call again */
    ULFM_ERR_TWICE = 15,          /* another has contributed as this rank. No call of a rank of threads answers it while the rules above are
                                     kept: only a rank's one handle contributes for it. A replica answers it where the log has an entry in
                                     its name that isn't of this replica, as of its process before a restart */
    ULFM_ERR_OUT_OF_RANGE = 16,   /* a limit of ulfm_open is 0 or too great */
    ULFM_ERR_TOO_LARGE = 17,      /* the limits' size is above ULFM_MAX_SIZE */
    ULFM_ERR_HANDLE = 18,         /* the handle holds nothing: it was never opened, or it is closed */
    ULFM_ERR_NOT_A_RANK = 19,     /* the handle is the outside's; a replica's, where a rank of threads is wanted, or the other way round */
    ULFM_ERR_COUNT = 20,          /* there isn't one handle for each rank */
    ULFM_ERR_CALL = 21,           /* a call of the replica is under way: ulfm_run until it is answered */
    ULFM_ERR_GAP = 22,            /* the entry's number isn't that of the next: nothing was fed */
    ULFM_ERR_LOST = 23,           /* memory was refused before: this replica serves for nothing more. Close it */
    /* of this header's calls in C */
    ULFM_ERR_PENDING = 64         /* MPI_ERR_PENDING: not answered after so many polls; the request is still open */
};

/* What a poll answered. */
enum ulfm_kind {
    ULFM_PENDING = 0, /* not all have contributed, or arrived; the request is still open */
    ULFM_AGREED = 1,  /* flag, failed and raised */
    ULFM_SHRUNK = 2,  /* comm, context and size */
    ULFM_DONE = 3     /* all members have arrived in the barrier */
};

/* What a rank contributes to an agree: 64 bits, under AND. */
typedef uint64_t ulfm_flag;

typedef struct ulfm_reply {
    ulfm_flag flag;   /* AGREED: all contributed flags under bitwise AND */
    uint32_t kind;    /* one of the four above; a field that it doesn't name is 0 */
    uint16_t failed;  /* AGREED: the size of the failed group */
    uint16_t comm;    /* SHRUNK: the new communicator */
    uint16_t context; /* SHRUNK: its context id, 1 to 63 */
    uint16_t size;    /* SHRUNK: how many members it has */
    bool raised;      /* AGREED: some contributor hadn't acknowledged all of the failed group */
} ulfm_reply;
#define ULFM_REPLY_INIT {0, 0, 0, 0, 0, 0, false}

/* An entry of a world's log, as it is stored: see "ranks on several machines". docs/FORMATS.md has its layout. */
typedef struct ulfm_entry {
    unsigned char bytes[24];
} ulfm_entry;

/* What ulfm_run came to. */
enum ulfm_ran {
    ULFM_IDLE = 0,    /* no call is under way */
    ULFM_WANTS = 1,   /* the call wants an entry in the log */
    ULFM_ANSWERED = 2 /* the call is answered */
};

/* What ulfm_feed made of an entry. */
enum ulfm_fed_as {
    ULFM_LEFT_OUT = 0, /* it isn't legal after those before it, or it is no entry: it is left out, here as everywhere */
    ULFM_TAKEN = 1,    /* it is another's */
    ULFM_OWN = 2       /* it is what this replica's call wanted */
};

/* The layout on which the library and this header agree. */
ULFM_STATIC_ASSERT(CHAR_BIT == 8 && sizeof(int) == 4 && sizeof(bool) == 1, "int has 32 bits, bool has 8");
ULFM_STATIC_ASSERT(sizeof(void *) == 8 && sizeof(size_t) == 8, "addresses have 64 bits");
ULFM_STATIC_ASSERT(sizeof(ulfm_handle) == sizeof(void *), "a handle is one pointer");
ULFM_STATIC_ASSERT(sizeof(ulfm_flag) == 8 && sizeof(ulfm_reply) == 24, "a flag has 8 bytes, a reply 24");
ULFM_STATIC_ASSERT(offsetof(ulfm_reply, flag) == 0 && offsetof(ulfm_reply, kind) == 8, "flag, kind");
ULFM_STATIC_ASSERT(offsetof(ulfm_reply, failed) == 12 && offsetof(ulfm_reply, comm) == 14, "failed, comm");
ULFM_STATIC_ASSERT(offsetof(ulfm_reply, context) == 16 && offsetof(ulfm_reply, size) == 18, "context, size");
ULFM_STATIC_ASSERT(offsetof(ulfm_reply, raised) == 20, "raised");
ULFM_STATIC_ASSERT(sizeof(ulfm_entry) == 24, "an entry has 24 bytes");

/* ------------------------------------------------------------------------------------------------ opening and closing
 * PROVED: at code 0 the handles hold a new world's outside and its ranks, in order; at any other they are as they were, and the code is the
 * first reason that holds. A handle that was closed holds nothing. That memory is given back is tested alone. The caller owes rules 1 to 6. */

/* Opens a world of `ranks` ranks (1 to 1,024), with room for `comms` communicators (1 to 256, communicator 0 among them), each
 * with `rounds` rounds of agreements and as many of barriers (1 to 4,096). The last agreement round is kept for a shrink: for one
 * agree and then a shrink take comms 2 and rounds 2. `handles` has `count` handles, one for each rank, in order.
 *
 * Takes 8 bytes for each of the world's words, and some KB for each rank. A handle that held something before gives it back.
 * Answers ULFM_ERR_COUNT, ULFM_ERR_OUT_OF_RANGE, ULFM_ERR_TOO_LARGE or ULFM_ERR_NO_MEM, the first that holds; then all handles
 * are as they were, and nothing is left of the world. Any thread; it holds all these handles during the call. MPI: MPI_Init. */
int ulfm_open(uint16_t ranks, uint16_t comms, uint16_t rounds, ulfm_handle *outside, ulfm_handle *handles,
              size_t count) ULFM_NONNULL;

/* Gives back what a handle holds, and leaves it null; the world ends with its last handle. It is no declaration: a rank that is
 * closed with a round open, or before it, is missing there until it is declared. So declare it, through a handle that is left.
 * Answers ULFM_ERR_HANDLE where it holds nothing, as on a second close. No step. Any thread. MPI: MPI_Finalize. */
int ulfm_close(ulfm_handle *handle) ULFM_NONNULL;

/* ------------------------------------------------------------------------------------------------ declaring failures
 * PROVED: it is a declaration of the specification, within its steps. The caller owes rules 1 to 6, and that the rank is dead. */

/* Declares a rank failed, through the outside's handle or a rank's. The caller is believed, and it is for good: the rank is refused
 * from its next call on, also where the detector was wrong. `first`: whether this call declared it, and none before.
 * Answers ULFM_ERR_RANK, and then nobody is declared; ULFM_ERR_HANDLE. At most 2N steps. Any thread. MPI: the runtime's own. */
int ulfm_fail(ulfm_handle *handle, uint16_t rank, bool *first) ULFM_NONNULL;

/* ------------------------------------------------------------------------------------------------ a rank's calls
 * PROVED: each is the specification's call, whose answer is right at one point of one history, within its steps; the code is 0 or the
 * refusal's number, and what is written is the answer. The caller owes rules 1 to 6.
 *
 * Each may answer ULFM_ERR_HANDLE, ULFM_ERR_NOT_A_RANK, ULFM_ERR_SELF_FAILED or ULFM_ERR_COMM, in this order, and then what its own
 * comment names. Any thread, one call at a time on one handle. Starts of agrees and of shrinks make at most N - v + 2
 * steps, those of barriers, ulfm_revoke and ulfm_is_revoked N - v + 1. */

/* Starts an agree on a flag: the rank contributes it to the communicator's next round. ulfm_poll asks for the reply.
 * ULFM_ERR_BUSY, ULFM_ERR_ROUNDS_USED_UP. MPI: MPIX_Comm_iagree. */
int ulfm_iagree(ulfm_handle *rank, uint16_t comm, ulfm_flag flag) ULFM_NONNULL;

/* Starts a shrink: a new communicator of the members without the failed group that the round decides.
 * ULFM_ERR_BUSY, ULFM_ERR_SHRINK_OPEN, ULFM_ERR_ROUNDS_USED_UP. MPI: MPIX_Comm_ishrink. */
int ulfm_ishrink(ulfm_handle *rank, uint16_t comm) ULFM_NONNULL;

/* Starts a barrier: the rank arrives. ULFM_ERR_BUSY, ULFM_ERR_ROUNDS_USED_UP. MPI: MPI_Ibarrier. */
int ulfm_ibarrier(ulfm_handle *rank, uint16_t comm) ULFM_NONNULL;

/* Revokes a communicator, for all ranks and for good. Barriers on it are refused from their next poll on; agrees and shrinks go
 * on. `first`: whether this call revoked it, and none before. MPI: MPIX_Comm_revoke. */
int ulfm_revoke(ulfm_handle *rank, uint16_t comm, bool *first) ULFM_NONNULL;

/* Whether a communicator is revoked. MPI: MPIX_Comm_is_revoked. */
int ulfm_is_revoked(ulfm_handle *rank, uint16_t comm, bool *answer) ULFM_NONNULL;

/* Asks for the reply to the request that is open on the communicator; it also does the work that is left of members that were
 * declared. `reply` is written where the answer is 0: ULFM_PENDING leaves the request open, any other kind ends it.
 * ULFM_ERR_IDLE; of an agree or a shrink ULFM_ERR_MISMATCH; of a shrink ULFM_ERR_NO_CONTEXT, ULFM_ERR_NO_ROOM and ULFM_ERR_NO_MEM;
 * of a barrier ULFM_ERR_REVOKED and ULFM_ERR_PROC_FAILED. All but ULFM_ERR_IDLE and ULFM_ERR_NO_MEM end the request. After
 * ULFM_ERR_NO_MEM poll again: the reply is the one that the others get.
 * Steps: N - v + 5n + 4 for an agree, N - v + 5n + 2M + 3 for a shrink, N - v + n + 1 for a barrier. MPI: MPI_Test. */
int ulfm_poll(ulfm_handle *rank, uint16_t comm, ulfm_reply *reply) ULFM_NONNULL;

/* The failed group of a communicator, in the order of the declarations. Writes the first `room` of it, and `count` is how many
 * there are. ULFM_ERR_NO_MEM. At most N - v steps. MPI: MPIX_Comm_get_failed. */
int ulfm_get_failed(ulfm_handle *rank, uint16_t comm, uint16_t *ranks, size_t room, size_t *count) ULFM_NONNULL;

/* Acknowledges the first `count` failures that the rank knows on a communicator, or all where there are fewer. `acknowledged` is how
 * many are acknowledged now; with count 0 it only asks. At most N - v steps. MPI: MPIX_Comm_ack_failed. */
int ulfm_ack_failed(ulfm_handle *rank, uint16_t comm, uint16_t count, uint16_t *acknowledged) ULFM_NONNULL;

/* Acknowledges all failures that the rank knows on a communicator, as ulfm_ack_failed with count 1024. `acknowledged` is how many are
 * acknowledged now. At most N - v steps. MPI: MPIX_Comm_failure_ack of 2013, which doesn't tell how many there are. */
int ulfm_failure_ack(ulfm_handle *rank, uint16_t comm, uint16_t *acknowledged) ULFM_NONNULL;

/* The acknowledged failures of a communicator: the first ranks of its failed group. Writes the first `room` of them, and `count` is how
 * many there are. ULFM_ERR_NO_MEM. At most N - v steps. MPI: MPIX_Comm_failure_get_acked of 2013, which gives a group. */
int ulfm_failure_get_acked(ulfm_handle *rank, uint16_t comm, uint16_t *ranks, size_t room, size_t *count) ULFM_NONNULL;

/* Gives the rank's own hold on a communicator back; the others hold it on. Neither its number nor its rounds come back, its context
 * id does. ULFM_ERR_WORLD_KEPT of communicator 0, ULFM_ERR_BUSY. At most N - v steps. MPI: MPI_Comm_free, which is collective. */
int ulfm_free(ulfm_handle *rank, uint16_t comm) ULFM_NONNULL;

/* ------------------------------------------------------------------------------------------------ whom a rank waits for
 * PROVED: whoever is listed was missing at some moment of the call, whoever isn't has come by its end; within its steps, and nothing else
 * changes. The caller owes rules 1 to 6. */

/* Who is missing in the round of the request that is open on the communicator, in the members' order: of an agree or a shrink whoever
 * has neither contributed nor was left out as declared, of a barrier whoever hasn't arrived. Whoever is listed may have come since; a
 * member that is declared is listed until somebody's poll leaves it out. Writes the first `room` of them, and `count` is how many
 * there are. It is no call of the rank's: it looks for no failure, is answered also where the rank is declared, and ulfm_last_steps
 * doesn't count it. ULFM_ERR_HANDLE, ULFM_ERR_NOT_A_RANK, ULFM_ERR_COMM, ULFM_ERR_IDLE, ULFM_ERR_NO_MEM. n steps.
 * Any thread, one call at a time on one handle. MPI: nothing. */
int ulfm_missing(ulfm_handle *rank, uint16_t comm, uint16_t *ranks, size_t room, size_t *count) ULFM_NONNULL;

/* ------------------------------------------------------------------------------------------------ what a rank knows
 * PROVED: what is written is so, and nothing changes. The caller owes rules 1 to 6.
 *
 * These make no atomic step and tell what the rank itself keeps, also of a rank that was declared. Each may answer ULFM_ERR_HANDLE or
 * ULFM_ERR_NOT_A_RANK. Any thread, one call at a time on one handle. */

/* The rank's number in the world. MPI: MPI_Comm_rank of MPI_COMM_WORLD. */
int ulfm_rank(ulfm_handle *rank, uint16_t *number) ULFM_NONNULL;

/* All ranks that its calls have seen to be declared, in the order of the declarations. Writes the first `room` of them, and `count` is how
 * many there are. MPI: nothing. */
int ulfm_failures(ulfm_handle *rank, uint16_t *ranks, size_t room, size_t *count) ULFM_NONNULL;

/* The members of a communicator, in order, by their numbers in the world. Writes the first `room` of them, and `count` is how many there
 * are. ULFM_ERR_COMM. MPI: MPI_Comm_group, MPI_Comm_size. */
int ulfm_members(ulfm_handle *rank, uint16_t comm, uint16_t *ranks, size_t room, size_t *count) ULFM_NONNULL;

/* The context id of a communicator, 0 to 63. No two that a rank holds have the same. ULFM_ERR_COMM. MPI: nothing. */
int ulfm_context(ulfm_handle *rank, uint16_t comm, uint16_t *context) ULFM_NONNULL;

/* How many atomic steps the rank's last call made, 0 before any. ulfm_fail isn't counted. MPI: nothing. */
int ulfm_last_steps(ulfm_handle *rank, uint32_t *steps) ULFM_NONNULL;

/* ------------------------------------------------------------------------------------------------ ranks on several machines
 * A replica is a rank that keeps all of a world to itself. Only events go from one machine to another: as entries of the world's log, which
 * a store has and everybody reads in order. The library opens no file and no connection. ulfm_run tells which entry to append; the caller
 * appends it, reads the log, and feeds each entry by its number. c/drivers has that for three stores, and docs/STORE.md tells it.
 *
 * PREMISE, which nothing checks: whatever two machines are fed as entry number i of a world's log is the same entry.
 *
 * PROVED: each call is safe and returns, whatever it is fed. Under the premise all replicas of a world see beginnings of one history, in
 * which each call is the specification's call, and its answer right at one point. Whether an append came is told by the log alone. The
 * caller owes rules 1 to 6. All replicas of a world are opened with the same limits.
 *
 * A replica's handle is good for the calls of this part, for ulfm_rank, ulfm_failures, ulfm_members, ulfm_context and ulfm_close; all others
 * answer ULFM_ERR_NOT_A_RANK, and so do those of this part for a rank of threads and for the outside. Each may answer ULFM_ERR_HANDLE,
 * ULFM_ERR_NOT_A_RANK or ULFM_ERR_LOST, in this order, and then what its own comment names. Where memory is refused within ulfm_run or
 * ulfm_feed the replica is lost: the call answers ULFM_ERR_LOST, as all later ones do but ulfm_close. */

/* Opens rank `number` of a world with these limits, which are ulfm_open's. Nothing of the log is fed. A handle that held something before
 * gives it back. ULFM_ERR_OUT_OF_RANGE, ULFM_ERR_TOO_LARGE, ULFM_ERR_RANK where `number` isn't below `ranks`, ULFM_ERR_NO_MEM; then the
 * handle is as it was. MPI: MPI_Init. */
int ulfm_open_replica(ulfm_handle *rank, uint16_t number, uint16_t ranks, uint16_t comms, uint16_t rounds) ULFM_NONNULL;

/* Each begins a call of the rank, which ulfm_run goes on with and answers: by the codes of the call of a rank of threads that it is named
 * for. ULFM_ERR_CALL where a call is under way. They make no step. MPI: as beside ulfm_iagree to ulfm_free. */
int ulfm_begin_agree(ulfm_handle *rank, uint16_t comm, ulfm_flag flag) ULFM_NONNULL;
int ulfm_begin_shrink(ulfm_handle *rank, uint16_t comm) ULFM_NONNULL;
int ulfm_begin_barrier(ulfm_handle *rank, uint16_t comm) ULFM_NONNULL;
int ulfm_begin_poll(ulfm_handle *rank, uint16_t comm) ULFM_NONNULL;
int ulfm_begin_revoke(ulfm_handle *rank, uint16_t comm) ULFM_NONNULL;
int ulfm_begin_is_revoked(ulfm_handle *rank, uint16_t comm) ULFM_NONNULL;
int ulfm_begin_get_failed(ulfm_handle *rank, uint16_t comm) ULFM_NONNULL;
int ulfm_begin_ack_failed(ulfm_handle *rank, uint16_t comm, uint16_t count) ULFM_NONNULL;
int ulfm_begin_failure_ack(ulfm_handle *rank, uint16_t comm) ULFM_NONNULL;
int ulfm_begin_failure_get_acked(ulfm_handle *rank, uint16_t comm) ULFM_NONNULL;
int ulfm_begin_free(ulfm_handle *rank, uint16_t comm) ULFM_NONNULL;

/* Goes on with the call that is under way, as far as no entry is wanted. `ran` becomes one of three:
 *   ULFM_IDLE       no call is under way;
 *   ULFM_WANTS      append `entry` to the log, and feed on. Asked again before it was fed, it wants the same entry again, or none, where
 *                   another was fed that took its place. To append an entry twice does no harm;
 *   ULFM_ANSWERED   the call is answered. `code` is what the call of a rank of threads answers, and where that is 0 `reply` is what the call
 *                   tells: a poll's reply, as ulfm_poll writes it. For the others `kind` is 0, and `failed` has the number that is told: of
 *                   revoke 1 where this call revoked it, of is_revoked 1 where it is revoked, of ack_failed and failure_ack how many are
 *                   acknowledged, of get_failed and failure_get_acked how many there are, whom ulfm_replica_group tells.
 * What `ran` doesn't name is as it was. It never waits. */
int ulfm_run(ulfm_handle *rank, ulfm_entry *entry, ulfm_reply *reply, int *code, uint32_t *ran) ULFM_NONNULL;

/* Feeds entry number `index` of the world's log, counted from 0: the next one, or ULFM_ERR_GAP, and nothing is fed. `fed` becomes
 * ULFM_LEFT_OUT, ULFM_TAKEN or ULFM_OWN. Any 24 bytes may be fed. */
int ulfm_feed(ulfm_handle *rank, uint64_t index, const ulfm_entry *entry, uint32_t *fed) ULFM_NONNULL;

/* How many entries were fed, those that were left out among them: the number of the next one. */
int ulfm_fed(ulfm_handle *rank, uint64_t *count) ULFM_NONNULL;

/* The failed group of a communicator as the replica's calls have seen it, in the order of the declarations. It makes no step. Behind
 * get_failed it is what that call counted; behind failure_get_acked the first so many of it are. Writes the first `room` of it, and `count`
 * is how many there are. ULFM_ERR_COMM, ULFM_ERR_NO_MEM. */
int ulfm_replica_group(ulfm_handle *rank, uint16_t comm, uint16_t *ranks, size_t room, size_t *count) ULFM_NONNULL;

/* In C: the entry by which the outside declares a rank failed, to be appended to the log. The caller is believed, as by ulfm_fail.
 * ULFM_ERR_RANK where no world has such a rank. MPI: the runtime's own. */
int ulfm_failure_entry(uint16_t rank, ulfm_entry *entry) ULFM_NONNULL;

/* ------------------------------------------------------------------------------------------------ in C: texts */

/* What a code means, in a few English words; never null. The text is the library's. Any thread. MPI: MPI_Error_string. */
const char *ulfm_strerror(int code);

/* ------------------------------------------------------------------------------------------------ in C: ranks that are processes
 * A world in memory that processes share: the parent maps a region (mmap with MAP_SHARED | MAP_ANONYMOUS), opens the world in it,
 * and forks a process for each rank. Whoever is killed, at whatever moment, keeps nobody up once the parent has declared it.
 *
 * None of this is proved. What the caller owes beside the rules above:
 *   7. The region is mapped shared, at one address in all processes, as fork leaves it, and stays so as long as a handle is used.
 *   8. Each handle is used by one process: rank i's by its child, the outside's by the parent. A fork copies all handles, so each
 *      process drops those that aren't its own by ulfm_drop_copy.
 *   9. The process has one thread when it forks.
 *  10. A process that is declared failed has ended, or ends without a further call that matters: it is refused from then on. */

/* How many bytes suffice for a region with a world of these limits. 0 where the limits are out of range. */
size_t ulfm_shared_size(uint16_t ranks, uint16_t comms, uint16_t rounds);

/* As ulfm_open, with all that the world takes lying in the region, of which nothing else may be used. The blocks that a rank takes
 * later are its own process's, from malloc. Answers what ulfm_open does; ULFM_ERR_NO_MEM also where the region is too small or has
 * a world already, and where this process has 64 of them. One thread at a time opens in one region. */
int ulfm_open_shared(uint16_t ranks, uint16_t comms, uint16_t rounds, void *region, size_t size, ulfm_handle *outside,
                     ulfm_handle *handles, size_t count) ULFM_NONNULL;

/* Tells this process that no handle of the region is used in it any more: call it before munmap. The region's memory comes back by
 * munmap alone, whatever was closed. */
void ulfm_forget_shared(void *region) ULFM_NONNULL;

#ifdef __cplusplus
}
#endif

/* Makes a handle null whose original another process uses. It gives nothing back. */
ULFM_NONNULL static inline void ulfm_drop_copy(ulfm_handle *copy)
{
    ulfm_handle null = ULFM_HANDLE_NULL;
    *copy = null;
}

/* ------------------------------------------------------------------------------------------------ in C: calls that wait
 * Loops over ulfm_poll. That they end isn't promised: a member that neither contributes nor is declared keeps them up. So each has a
 * sibling that ends after so many polls. Between two polls they call ULFM_YIELD(), which you may define before this header. */
#ifndef ULFM_YIELD
#include <sched.h>
#define ULFM_YIELD() ((void)sched_yield())
#endif

/* Polls until it is answered, or refused. The answer and `reply` are the last poll's. MPI: MPI_Wait. */
ULFM_NONNULL static inline int ulfm_wait(ulfm_handle *rank, uint16_t comm, ulfm_reply *reply)
{
    for (;;) {
        int code = ulfm_poll(rank, comm, reply);
        if (code != ULFM_SUCCESS || reply->kind != ULFM_PENDING)
            return code;
        ULFM_YIELD();
    }
}

/* The same with at most `polls` polls, 1 or more. ULFM_ERR_PENDING after that: the request is still open. ulfm_missing tells whom it
 * waits for; declare whoever is dead, and call this again. `reply` is then ULFM_PENDING. */
ULFM_NONNULL static inline int ulfm_wait_for(ulfm_handle *rank, uint16_t comm, uint64_t polls, ulfm_reply *reply)
{
    for (;;) {
        int code = ulfm_poll(rank, comm, reply);
        if (code != ULFM_SUCCESS || reply->kind != ULFM_PENDING)
            return code;
        if (polls <= 1)
            return ULFM_ERR_PENDING;
        polls--;
        ULFM_YIELD();
    }
}

/* What MPIX_Comm_agree answers, of an agree's reply: the flag also where the error is raised. */
ULFM_NONNULL static inline int ulfm_agreed(const ulfm_reply *reply, ulfm_flag *flag)
{
    *flag = reply->flag;
    return reply->raised ? ULFM_ERR_PROC_FAILED : ULFM_SUCCESS;
}

/* Agrees: `flag` goes in, and comes out as the AND of all that were contributed, also where ULFM_ERR_PROC_FAILED is answered, which
 * all members get alike. After any other code it is as it was. The codes of ulfm_iagree and ulfm_poll. MPI: MPIX_Comm_agree. */
ULFM_NONNULL static inline int ulfm_agree(ulfm_handle *rank, uint16_t comm, ulfm_flag *flag)
{
    ulfm_reply reply = ULFM_REPLY_INIT;
    int code = ulfm_iagree(rank, comm, *flag);
    if (code == ULFM_SUCCESS)
        code = ulfm_wait(rank, comm, &reply);
    return code == ULFM_SUCCESS ? ulfm_agreed(&reply, flag) : code;
}

/* The same with at most `polls` polls. After ULFM_ERR_PENDING the agree is still open, and the flag is contributed: ulfm_missing tells
 * who hasn't contributed. Go on by ulfm_wait_for and ulfm_agreed. */
ULFM_NONNULL static inline int ulfm_agree_for(ulfm_handle *rank, uint16_t comm, uint64_t polls, ulfm_flag *flag)
{
    ulfm_reply reply = ULFM_REPLY_INIT;
    int code = ulfm_iagree(rank, comm, *flag);
    if (code == ULFM_SUCCESS)
        code = ulfm_wait_for(rank, comm, polls, &reply);
    return code == ULFM_SUCCESS ? ulfm_agreed(&reply, flag) : code;
}

/* Shrinks: `newcomm` is the new communicator's number. After ULFM_ERR_NO_MEM the shrink is still open: go on by ulfm_wait. The codes
 * of ulfm_ishrink and ulfm_poll. MPI: MPIX_Comm_shrink. */
ULFM_NONNULL static inline int ulfm_shrink(ulfm_handle *rank, uint16_t comm, uint16_t *newcomm)
{
    ulfm_reply reply = ULFM_REPLY_INIT;
    int code = ulfm_ishrink(rank, comm);
    if (code == ULFM_SUCCESS)
        code = ulfm_wait(rank, comm, &reply);
    if (code == ULFM_SUCCESS)
        *newcomm = reply.comm;
    return code;
}

/* The same with at most `polls` polls. After ULFM_ERR_PENDING and ULFM_ERR_NO_MEM the shrink is still open. */
ULFM_NONNULL static inline int ulfm_shrink_for(ulfm_handle *rank, uint16_t comm, uint64_t polls, uint16_t *newcomm)
{
    ulfm_reply reply = ULFM_REPLY_INIT;
    int code = ulfm_ishrink(rank, comm);
    if (code == ULFM_SUCCESS)
        code = ulfm_wait_for(rank, comm, polls, &reply);
    if (code == ULFM_SUCCESS)
        *newcomm = reply.comm;
    return code;
}

/* Waits until all members have arrived. Others may succeed where this rank gets ULFM_ERR_PROC_FAILED or ULFM_ERR_REVOKED, as in MPI.
 * The codes of ulfm_ibarrier and ulfm_poll. MPI: MPI_Barrier. */
ULFM_NONNULL static inline int ulfm_barrier(ulfm_handle *rank, uint16_t comm)
{
    ulfm_reply reply = ULFM_REPLY_INIT;
    int code = ulfm_ibarrier(rank, comm);
    return code == ULFM_SUCCESS ? ulfm_wait(rank, comm, &reply) : code;
}

/* The same with at most `polls` polls. After ULFM_ERR_PENDING the barrier is still open. */
ULFM_NONNULL static inline int ulfm_barrier_for(ulfm_handle *rank, uint16_t comm, uint64_t polls)
{
    ulfm_reply reply = ULFM_REPLY_INIT;
    int code = ulfm_ibarrier(rank, comm);
    return code == ULFM_SUCCESS ? ulfm_wait_for(rank, comm, polls, &reply) : code;
}

#endif
