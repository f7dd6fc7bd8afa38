/*
 * Logs the ULFM calls of an MPI program and their replies, one file for each process, by MPI's profiling interface.
 *
 * Compile it with your MPI's compiler, and link it before the MPI library:
 *
 *     mpicc -c ulfm_log.c && mpicc your_program.c ulfm_log.o -o your_program
 *     ULFM_LOG=run1 mpiexec -n 4 ./your_program
 *     ./join_logs.py run1 > run1.observed
 *
 * Process R writes the file $ULFM_LOG.R, or ulfm-log.R where ULFM_LOG isn't set. Each line is written whole, by one call of write, before the
 * call begins and after its reply has come, so nothing is lost where a process dies. Where a file can't be written the program stops.
 *
 * Logged are the blocking calls on the world's communicator and on those that shrinks made of it: agree, shrink, failure_ack, failure_get_acked,
 * revoke, barrier and free, and with -DULFM_LOG_2023 also ack_failed, get_failed and is_revoked. Communicators that were made otherwise, as
 * by MPI_Comm_dup, aren't logged. One thread at a time makes calls.
 *
 * A flag of an agree is the 32 bits of MPI's int. What MPI doesn't tell, as how many failures an agree decided on, isn't there; join_logs.py writes *.
 *
 * The lines, where STAMP is in nanoseconds, and C and J number the process's own communicators (0 is the world's):
 *
 *     ulfm-process 1 RANK RANKS
 *     call STAMP VERB C [FLAG or COUNT]
 *     reply STAMP WORD ..
 *     end                                  MPI_Finalize was called
 */
#define _POSIX_C_SOURCE 200809L

#include <inttypes.h>
#include <mpi.h>
#if defined(__has_include)
#if __has_include(<mpi-ext.h>)
#include <mpi-ext.h>
#endif
#endif
#include <stdarg.h>
#include <stdint.h>
#include <stdio.h>
#include <stdlib.h>
#include <string.h>
#include <time.h>
#include <unistd.h>
#include <fcntl.h>

enum {
    MOST_COMMS = 256,   /* communicators that are known at one time */
    MOST_BYTES = 8192,  /* of a line */
    EVERYBODY = 1024    /* the count by which failure_ack acknowledges all failures */
};

/* A communicator that is logged: its handle, its number here, and how many agreements and shrinks were started on it. */
struct known {
    MPI_Comm comm;
    int number;
    int rounds;
};

static struct known known[MOST_COMMS];
static int known_count;
static int next_number;
static int file = -1;
static MPI_Group world_group;

/* Stops the program: a log that lacks something must not look whole. */
static void stop(const char *reason)
{
    fprintf(stderr, "ulfm_log: %s\n", reason);
    abort();
}

/* Writes a line, whole. */
static void put(const char *form, ...)
{
    char line[MOST_BYTES];
    va_list rest;
    if (file < 0)
        return;
    va_start(rest, form);
    int length = vsnprintf(line, sizeof line, form, rest);
    va_end(rest);
    if (length < 0 || (size_t)length >= sizeof line)
        stop("a line is too long");
    if (write(file, line, (size_t)length) != length)
        stop("the log can't be written");
}

/* A time in nanoseconds, which all processes of one host share. */
static uint64_t stamp(void)
{
    struct timespec now;
    if (clock_gettime(CLOCK_MONOTONIC, &now) != 0)
        stop("there is no clock");
    return (uint64_t)now.tv_sec * UINT64_C(1000000000) + (uint64_t)now.tv_nsec;
}

/* The communicator of this handle, if it is logged. */
static struct known *find(MPI_Comm comm)
{
    for (int i = 0; i < known_count; i++)
        if (known[i].comm == comm)
            return &known[i];
    return NULL;
}

/* Logs a communicator from now on, and gives its number. */
static int add(MPI_Comm comm)
{
    if (known_count == MOST_COMMS)
        stop("there are too many communicators");
    known[known_count].comm = comm;
    known[known_count].number = next_number;
    known[known_count].rounds = 0;
    known_count++;
    return next_number++;
}

/* The class of what a call gave. */
static int class_of(int given)
{
    int class = MPI_SUCCESS;
    if (given == MPI_SUCCESS)
        return MPI_SUCCESS;
    if (PMPI_Error_class(given, &class) != MPI_SUCCESS)
        return given;
    return class;
}

/* An answer that has no word: the one who joins the files is told its class. */
static void put_other(int class)
{
    put("reply %" PRIu64 " other %d\n", stamp(), class);
}

/* Tells that a call was answered by this word, or what went wrong. It answers what the call gave. */
static int told(int given, const char *word)
{
    int class = class_of(given);
    if (class == MPI_SUCCESS)
        put("reply %" PRIu64 " %s\n", stamp(), word);
    else
        put_other(class);
    return given;
}

/* Opens the file, once it is known who this is. */
static void begin(void)
{
    const char *name = getenv("ULFM_LOG");
    char path[4096];
    int rank = 0, ranks = 0;
    PMPI_Comm_rank(MPI_COMM_WORLD, &rank);
    PMPI_Comm_size(MPI_COMM_WORLD, &ranks);
    PMPI_Comm_group(MPI_COMM_WORLD, &world_group);
    int length = snprintf(path, sizeof path, "%s.%d", name != NULL ? name : "ulfm-log", rank);
    if (length < 0 || (size_t)length >= sizeof path)
        stop("the name of the log is too long");
    file = open(path, O_WRONLY | O_CREAT | O_TRUNC | O_APPEND | O_CLOEXEC, 0666);
    if (file < 0)
        stop("the log can't be opened");
    add(MPI_COMM_WORLD);
    put("ulfm-process 1 %d %d\n", rank, ranks);
}

int MPI_Init(int *argc, char ***argv)
{
    int given = PMPI_Init(argc, argv);
    if (given == MPI_SUCCESS)
        begin();
    return given;
}

int MPI_Init_thread(int *argc, char ***argv, int required, int *provided)
{
    int given = PMPI_Init_thread(argc, argv, required, provided);
    if (given == MPI_SUCCESS)
        begin();
    return given;
}

int MPI_Finalize(void)
{
    put("end\n");
    return PMPI_Finalize();
}

int MPIX_Comm_agree(MPI_Comm comm, int *flag)
{
    struct known *on = find(comm);
    if (on == NULL)
        return PMPIX_Comm_agree(comm, flag);
    put("call %" PRIu64 " agree %d %08x\n", stamp(), on->number, (unsigned)*flag);
    int given = PMPIX_Comm_agree(comm, flag);
    int class = class_of(given);
    on->rounds++;
    if (class == MPI_SUCCESS)
        put("reply %" PRIu64 " agreed %08x clean\n", stamp(), (unsigned)*flag);
    else if (class == MPIX_ERR_PROC_FAILED)
        put("reply %" PRIu64 " agreed %08x raised\n", stamp(), (unsigned)*flag);
    else
        put_other(class);
    return given;
}

/* The members of a communicator as ranks of the world, each behind a space. */
static void members_of(MPI_Group group, char *text, size_t room)
{
    int size = 0;
    size_t used = 0;
    text[0] = '\0';
    PMPI_Group_size(group, &size);
    for (int i = 0; i < size; i++) {
        int world = 0;
        PMPI_Group_translate_ranks(group, 1, &i, world_group, &world);
        int length = snprintf(text + used, room - used, " %d", world);
        if (length < 0 || (size_t)length >= room - used)
            stop("there are too many members");
        used += (size_t)length;
    }
}

int MPIX_Comm_shrink(MPI_Comm comm, MPI_Comm *made)
{
    struct known *on = find(comm);
    char members[MOST_BYTES - 256];
    MPI_Group group;
    if (on == NULL)
        return PMPIX_Comm_shrink(comm, made);
    put("call %" PRIu64 " shrink %d\n", stamp(), on->number);
    int given = PMPIX_Comm_shrink(comm, made);
    int class = class_of(given);
    int round = on->rounds++;
    if (class != MPI_SUCCESS) {
        put_other(class);
        return given;
    }
    PMPI_Comm_group(*made, &group);
    members_of(group, members, sizeof members);
    PMPI_Group_free(&group);
    put("reply %" PRIu64 " shrunk %d %d%s\n", stamp(), round, add(*made), members);
    return given;
}

/* How many failures of a communicator this process has acknowledged. */
static int count_acked(MPI_Comm comm, int *count)
{
    MPI_Group group;
    int given = PMPIX_Comm_failure_get_acked(comm, &group);
    if (given != MPI_SUCCESS)
        return given;
    given = PMPI_Group_size(group, count);
    PMPI_Group_free(&group);
    return given;
}

/* How many are acknowledged now, or what went wrong. */
static void put_acked(int class, int count)
{
    if (class == MPI_SUCCESS)
        put("reply %" PRIu64 " acked %d\n", stamp(), count);
    else
        put_other(class);
}

int MPIX_Comm_failure_ack(MPI_Comm comm)
{
    struct known *on = find(comm);
    int count = 0;
    if (on == NULL)
        return PMPIX_Comm_failure_ack(comm);
    put("call %" PRIu64 " ack %d %d\n", stamp(), on->number, EVERYBODY);
    int given = PMPIX_Comm_failure_ack(comm);
    int class = class_of(given == MPI_SUCCESS ? count_acked(comm, &count) : given);
    put_acked(class, count);
    return given;
}

int MPIX_Comm_failure_get_acked(MPI_Comm comm, MPI_Group *group)
{
    struct known *on = find(comm);
    int count = 0;
    if (on == NULL)
        return PMPIX_Comm_failure_get_acked(comm, group);
    put("call %" PRIu64 " ack %d 0\n", stamp(), on->number);
    int given = PMPIX_Comm_failure_get_acked(comm, group);
    int class = class_of(given == MPI_SUCCESS ? PMPI_Group_size(*group, &count) : given);
    put_acked(class, count);
    return given;
}

int MPIX_Comm_revoke(MPI_Comm comm)
{
    struct known *on = find(comm);
    if (on == NULL)
        return PMPIX_Comm_revoke(comm);
    put("call %" PRIu64 " revoke %d\n", stamp(), on->number);
    return told(PMPIX_Comm_revoke(comm), "revoked");
}

int MPI_Barrier(MPI_Comm comm)
{
    struct known *on = find(comm);
    if (on == NULL)
        return PMPI_Barrier(comm);
    put("call %" PRIu64 " barrier %d\n", stamp(), on->number);
    int given = PMPI_Barrier(comm);
    int class = class_of(given);
    if (class == MPI_SUCCESS)
        put("reply %" PRIu64 " done\n", stamp());
    else if (class == MPIX_ERR_PROC_FAILED)
        put("reply %" PRIu64 " proc-failed\n", stamp());
    else if (class == MPIX_ERR_REVOKED)
        put("reply %" PRIu64 " is-revoked\n", stamp());
    else
        put_other(class);
    return given;
}

int MPI_Comm_free(MPI_Comm *comm)
{
    struct known *on = find(*comm);
    if (on == NULL || on->number == 0)
        return PMPI_Comm_free(comm);
    put("call %" PRIu64 " free %d\n", stamp(), on->number);
    int given = PMPI_Comm_free(comm);
    int class = class_of(given);
    if (class != MPI_SUCCESS) {
        put_other(class);
        return given;
    }
    put("reply %" PRIu64 " freed\n", stamp());
    *on = known[--known_count];
    return given;
}

#ifdef ULFM_LOG_2023
int MPIX_Comm_ack_failed(MPI_Comm comm, int wanted, int *acked)
{
    struct known *on = find(comm);
    if (on == NULL)
        return PMPIX_Comm_ack_failed(comm, wanted, acked);
    put("call %" PRIu64 " ack %d %d\n", stamp(), on->number, wanted);
    int given = PMPIX_Comm_ack_failed(comm, wanted, acked);
    int class = class_of(given);
    if (class == MPI_SUCCESS)
        put("reply %" PRIu64 " acked %d\n", stamp(), *acked);
    else
        put_other(class);
    return given;
}

int MPIX_Comm_get_failed(MPI_Comm comm, MPI_Group *group)
{
    struct known *on = find(comm);
    char members[MOST_BYTES - 256];
    if (on == NULL)
        return PMPIX_Comm_get_failed(comm, group);
    put("call %" PRIu64 " get %d\n", stamp(), on->number);
    int given = PMPIX_Comm_get_failed(comm, group);
    int class = class_of(given);
    if (class != MPI_SUCCESS) {
        put_other(class);
        return given;
    }
    members_of(*group, members, sizeof members);
    put("reply %" PRIu64 " failed%s\n", stamp(), members[0] != '\0' ? members : " none");
    return given;
}

int MPIX_Comm_is_revoked(MPI_Comm comm, int *flag)
{
    struct known *on = find(comm);
    if (on == NULL)
        return PMPIX_Comm_is_revoked(comm, flag);
    put("call %" PRIu64 " isrevoked %d\n", stamp(), on->number);
    int given = PMPIX_Comm_is_revoked(comm, flag);
    return told(given, given == MPI_SUCCESS && *flag ? "yes" : "no");
}
#endif
