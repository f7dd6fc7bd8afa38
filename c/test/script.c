/* Runs a script of calls on standard input through the library, and prints what `ulfm run` prints.
 *
 * All ranks are called from this one thread. The grammar and the faults of lines are those of docs/FORMATS.md; the exit status is 0, 1
 * after a line's fault, 3 where memory is refused or writing fails, and 4 where a call makes more steps than ulfm.h says or answers what no
 * script prints. */
#include "ulfm.h"

#include <inttypes.h>
#include <stdio.h>
#include <stdlib.h>
#include <string.h>

enum { LONGEST = 64, MOST_LINES = 100000, MOST_WORDS = 6 };

static ulfm_handle outside = ULFM_HANDLE_NULL, handles[ULFM_MAX_RANKS];
static unsigned world_ranks, world_comms, line_number;
/* The version of the script. */
static int version;

static int ends(int status)
{
    for (unsigned rank = 0; rank < world_ranks; rank++)
        ulfm_close(&handles[rank]);
    ulfm_close(&outside);
    if (fflush(stdout) != 0) {
        fputs("ulfm: write failed\n", stderr);
        status = 3;
    }
    exit(status);
}

static void fault(const char *kind)
{
    fprintf(stderr, "ulfm: line %u: %s\n", line_number, kind);
    ends(1);
}

/* ---- a line and its words ---- */

static char line[LONGEST + 1];
static char *words[MOST_WORDS];
static int word_count;

/* Reads a line; false at the input's end. */
static bool read_line(void)
{
    size_t length = 0;
    int byte;
    line_number++;
    while ((byte = getchar()) != EOF && byte != '\n') {
        if (length == LONGEST)
            fault("long");
        line[length++] = byte == '\0' ? '\1' : (char)byte; /* no byte of the grammar, either way */
    }
    line[length] = '\0';
    if (byte == EOF && length > 0)
        fault("cut");
    if (byte == '\n' && line_number > MOST_LINES)
        fault("lines");
    return byte == '\n';
}

/* Cuts the line at each space; words may be empty. */
static void split(void)
{
    word_count = 0;
    for (char *at = line; at != NULL && word_count < MOST_WORDS; word_count++) {
        words[word_count] = at;
        at = strchr(at, ' ');
        if (at != NULL)
            *at++ = '\0';
    }
}

/* A decimal number of at most four digits without leading zeros, or -1. */
static int number_of(const char *word)
{
    size_t length = strlen(word);
    if (length == 0 || length > 4 || strspn(word, "0123456789") != length || (word[0] == '0' && length > 1))
        return -1;
    return atoi(word);
}

static uint16_t number(const char *word, int greatest)
{
    int value = number_of(word);
    if (value < 0 || value > greatest)
        fault("number");
    return (uint16_t)value;
}

static ulfm_flag flag_of(const char *word)
{
    size_t length = strlen(word);
    if ((length != 16 && (length != 8 || version == 2)) || strspn(word, "0123456789abcdef") != length)
        fault("flag");
    return strtoull(word, NULL, 16);
}

/* ---- replies ---- */

static const char *const refusals[] = {
    NULL, "self-failed", "no-such-comm", "busy", "shrink-open", "rounds-used-up", "idle", "mismatch", "no-context", "no-room",
    "is-revoked", "proc-failed", "world-kept", "no-such-rank",
};

/* Whether a code is success. A refusal is printed, and anything else ends the run. */
static bool succeeds(int code)
{
    if (code == ULFM_ERR_NO_MEM) {
        fputs("ulfm: out of memory\n", stderr);
        ends(3);
    }
    if (code < 0 || code > ULFM_ERR_RANK) {
        fprintf(stderr, "a code that no script prints: %d, %s\n", code, ulfm_strerror(code));
        ends(4);
    }
    if (code != ULFM_SUCCESS)
        printf("refused %d %s\n", code, refusals[code]);
    return code == ULFM_SUCCESS;
}

static void print_ranks(const uint16_t *ranks, size_t count)
{
    for (size_t at = 0; at < count; at++)
        printf(" %u", ranks[at]);
    putchar('\n');
}

static void print_failed(const uint16_t *ranks, size_t count)
{
    fputs(count == 0 ? "failed none" : "failed", stdout);
    print_ranks(ranks, count);
}

/* Eight digits, or sixteen where the upper half isn't 0. */
static void print_flag(ulfm_flag flag)
{
    if (flag >> 32)
        printf("%016" PRIx64, flag);
    else
        printf("%08" PRIx64, flag);
}

static void print_reply(ulfm_handle *rank, const ulfm_reply *reply)
{
    static uint16_t members[ULFM_MAX_RANKS];
    size_t count = 0;
    switch (reply->kind) {
    case ULFM_AGREED:
        printf("agreed ");
        print_flag(reply->flag);
        printf(" failed %u %s\n", reply->failed, reply->raised ? "raised" : "clean");
        break;
    case ULFM_SHRUNK:
        if (!succeeds(ulfm_members(rank, reply->comm, members, ULFM_MAX_RANKS, &count)))
            break;
        if (count != reply->size)
            printf("size %u, but ", reply->size);
        printf("shrunk %u context %u members", reply->comm, reply->context);
        print_ranks(members, count);
        break;
    default:
        puts(reply->kind == ULFM_DONE ? "done" : "pending");
    }
}

/* ---- steps ---- */

/* What the steps of a rank's next call are bounded by: the ranks that it hasn't seen declared, and the communicator's members. */
struct before {
    unsigned unseen, members;
};

/* The verb of each rank's last start on each communicator; null before any. */
static const char *started[ULFM_MAX_RANKS][ULFM_MAX_COMMS];

/* How many steps a call makes at most behind its look. */
static unsigned behind_the_look(const char *verb, const char *start, unsigned members)
{
    if (strcmp(verb, "get") == 0 || strcmp(verb, "ack") == 0 || strcmp(verb, "free") == 0 || strncmp(verb, "failure_", 8) == 0)
        return 0;
    if (strcmp(verb, "agree") == 0 || strcmp(verb, "shrink") == 0)
        return 2;
    if (strcmp(verb, "poll") != 0)
        return 1;
    if (start == NULL)
        return 0;
    if (strcmp(start, "barrier") == 0)
        return members + 1;
    return strcmp(start, "agree") == 0 ? 5 * members + 4 : 5 * members + 2 * world_comms + 3;
}

static struct before before_call(ulfm_handle *own, uint16_t comm)
{
    uint16_t none[1];
    size_t seen = 0, members = 0;
    if (ulfm_failures(own, none, 0, &seen) != ULFM_SUCCESS)
        seen = 0;
    if (ulfm_members(own, comm, none, 0, &members) != ULFM_SUCCESS)
        members = 0;
    return (struct before){world_ranks - (unsigned)seen, (unsigned)members};
}

/* Ends the run where the rank's last call made more steps than its verb may make. */
static void check_steps(uint16_t rank, uint16_t comm, const char *verb, struct before before)
{
    unsigned most = before.unseen + behind_the_look(verb, started[rank][comm], before.members);
    uint32_t steps = 0;
    if (ulfm_last_steps(&handles[rank], &steps) != ULFM_SUCCESS || steps > most) {
        fprintf(stderr, "line %u: %u steps and not at most %u\n", line_number, (unsigned)steps, most);
        ends(4);
    }
}

/* ---- calls ---- */

static const struct verb {
    const char *name;
    int words; /* behind it */
    int since; /* the first version of scripts that has it */
} verbs[] = {{"fail", 1, 1},   {"get", 2, 1},    {"ack", 3, 1},       {"agree", 3, 1}, {"shrink", 2, 1},      {"barrier", 2, 1},
             {"poll", 2, 1},   {"revoke", 2, 1}, {"isrevoked", 2, 1}, {"free", 2, 1},  {"failure_ack", 2, 2}, {"failure_get_acked", 2, 2}};

static void starts(uint16_t rank, uint16_t comm, const char *verb)
{
    started[rank][comm] = verb;
    puts("started");
}

static void call(void)
{
    const struct verb *verb = verbs;
    while (verb < verbs + sizeof verbs / sizeof *verbs && strcmp(verb->name, words[0]) != 0)
        verb++;
    if (verb == verbs + sizeof verbs / sizeof *verbs || verb->since > version)
        fault("verb");
    bool is_empty = false;
    for (int at = 1; at < word_count; at++)
        is_empty = is_empty || words[at][0] == '\0';
    if (word_count != verb->words + 1 || is_empty)
        fault("words");
    uint16_t rank = number(words[1], ULFM_MAX_RANKS - 1), comm = 0, count = 0;
    ulfm_flag flag = 0;
    if (verb->words > 1)
        comm = number(words[2], ULFM_MAX_COMMS - 1);
    if (strcmp(verb->name, "ack") == 0)
        count = number(words[3], 9999);
    if (strcmp(verb->name, "agree") == 0)
        flag = flag_of(words[3]);
    if (rank >= world_ranks) {
        /* its handle isn't there; the outside says the same of the number */
        succeeds(ULFM_ERR_RANK);
        return;
    }

    ulfm_handle *own = &handles[rank];
    struct before before = before_call(own, comm);
    static uint16_t ranks[ULFM_MAX_RANKS];
    ulfm_reply reply;
    size_t found = 0;
    bool is = false;
    switch (verb - verbs) {
    case 0:
        if (succeeds(ulfm_fail(&outside, rank, &is)))
            puts(is ? "declared" : "already-failed");
        break;
    case 1:
        if (succeeds(ulfm_get_failed(own, comm, ranks, ULFM_MAX_RANKS, &found)))
            print_failed(ranks, found);
        break;
    case 2:
        if (succeeds(ulfm_ack_failed(own, comm, count, &count)))
            printf("acked %u\n", count);
        break;
    case 3:
        if (succeeds(ulfm_iagree(own, comm, flag)))
            starts(rank, comm, verb->name);
        break;
    case 4:
        if (succeeds(ulfm_ishrink(own, comm)))
            starts(rank, comm, verb->name);
        break;
    case 5:
        if (succeeds(ulfm_ibarrier(own, comm)))
            starts(rank, comm, verb->name);
        break;
    case 6:
        if (succeeds(ulfm_poll(own, comm, &reply)))
            print_reply(own, &reply);
        break;
    case 7:
        if (succeeds(ulfm_revoke(own, comm, &is)))
            puts(is ? "revoked" : "already-revoked");
        break;
    case 8:
        if (succeeds(ulfm_is_revoked(own, comm, &is)))
            puts(is ? "yes" : "no");
        break;
    case 10:
        if (succeeds(ulfm_failure_ack(own, comm, &count)))
            printf("acked %u\n", count);
        break;
    case 11:
        if (succeeds(ulfm_failure_get_acked(own, comm, ranks, ULFM_MAX_RANKS, &found)))
            print_failed(ranks, found);
        break;
    default:
        if (succeeds(ulfm_free(own, comm)))
            puts("freed");
    }
    if (verb != verbs)
        check_steps(rank, comm, verb->name, before);
}

static void header(void)
{
    if (word_count != 5 || strcmp(words[0], "ulfm") != 0 || (strcmp(words[1], "1") != 0 && strcmp(words[1], "2") != 0))
        fault("header");
    version = words[1][0] - '0';
    int limits[3];
    for (int at = 0; at < 3; at++)
        if ((limits[at] = number_of(words[at + 2])) < 0)
            fault("header");
    int code = ulfm_open((uint16_t)limits[0], (uint16_t)limits[1], (uint16_t)limits[2], &outside, handles, (size_t)limits[0]);
    if (code == ULFM_ERR_OUT_OF_RANGE || code == ULFM_ERR_TOO_LARGE)
        fault("limits");
    if (succeeds(code)) {
        world_ranks = (unsigned)limits[0];
        world_comms = (unsigned)limits[1];
    }
}

int main(void)
{
    if (!read_line())
        fault("header");
    split();
    header();
    while (read_line()) {
        split();
        call();
    }
    return ends(0);
}
