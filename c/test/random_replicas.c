/* Random runs of replicas in one process, over a log in memory. Each run has a seed of its own, and 2 to 8 replicas of one world that make one
 * plan of agrees, shrinks and barriers, each at its own pace, with questions, acknowledgements and revocations in between.
 *
 * What a replica wants comes to the log late, in another order than it was wanted, twice or three times, or not at all until it is wanted again.
 * Up to two replicas stop at a moment and are declared; now and then somebody is declared who lives. Entries that aren't legal are put into the
 * log, and in some runs forged ones that are. Each answer is compared with the model of the replica's own log (log_model.h), and with what the
 * others were answered. In some runs the log forks at a moment, and a part of the replicas reads on in the other one.
 *
 *     random_replicas RUNS SEED            the first wrong run ends it, and is named by its seed
 *     random_replicas RUNS SEED swapped    one replica of each run is fed two entries in the wrong order: counts the runs that are found wrong
 *     random_replicas RUNS SEED FOLDER     keeps each run's log there, by its seed, and beside it what `ulfm replay` has to say of it */
#include "drivers/replica.h"
#include "log_model.h"

#include <stdio.h>
#include <stdlib.h>

enum { MOST = MODEL_RANKS, STEPS = 9, LENGTH = 4096, WAITING = 256, TURNS = 200000, MUCH = 16 };

enum verb { AGREE, SHRINK, BARRIER };
enum side { GET_FAILED, ACK, FAILURE_ACK, GET_ACKED, IS_REVOKED, REVOKE, FREE, SIDES };
enum fate { LIVES, ENDED, DIED, REFUSED };
/* What a replica does: it is about to begin a step of the plan; its start, or its poll, is under way; it waits to poll; another call is under way. */
enum doing { BEGINS, STARTS, WAITS, POLLS, ASKS };

struct answer {
    bool is_there;
    int code;
    ulfm_reply reply;
    unsigned comm, round;
    uint16_t failed[MOST];
};

struct actor {
    struct replica replica;
    enum fate fate;
    enum doing doing, behind; /* and what comes behind another call */
    enum side side;
    unsigned log, pace, step, comm, old, count, rounds[MODEL_COMMS], barriers[MODEL_COMMS], acked[MODEL_COMMS];
    uint64_t looked, begun; /* how much was fed as its last poll, its last call began */
    ulfm_entry wanted;
    struct answer answers[STEPS];
};

struct stored {
    uint64_t length;
    ulfm_entry entries[LENGTH];
    bool taken[LENGTH];
    unsigned waits;
    ulfm_entry waiting[WAITING]; /* what was appended, and didn't come yet */
    uint64_t due[MOST];          /* from which turn on a rank is declared */
    struct model model;
};

static struct run {
    unsigned ranks, comms, rounds, steps, logs;
    unsigned odd, odd_step; /* who shrinks where the others agree, or the other way round, in which step */
    int intrusions; /* how many come yet */
    enum verb plan[STEPS];
    bool revokes, is_hostile;
    uint64_t turn, dies[MOST], fork; /* the turns at which ranks die, and the log forks */
    struct actor actors[MOST];
    struct stored stores[2];
    const char *wrong;
} run;

static struct {
    uint64_t runs, wrong, ranks, deaths, declared, entries, left_out, answers, forked, differ, swapped, by_digests;
} all;

static bool is_swapping, is_swapped;

/* ---- chance ---- */

static uint64_t state;

static uint64_t chance(void)
{
    uint64_t x = state += 0x9e3779b97f4a7c15u;
    x = (x ^ x >> 30) * 0xbf58476d1ce4e5b9u;
    x = (x ^ x >> 27) * 0x94d049bb133111ebu;
    return x ^ x >> 31;
}

/* Below a bound. */
static unsigned some(unsigned bound)
{
    return (unsigned)(chance() % bound);
}

static bool one_in(unsigned many)
{
    return some(many) == 0;
}

static void check(bool is_right, const char *otherwise)
{
    if (!is_right && run.wrong == NULL)
        run.wrong = otherwise;
}

/* ---- the log ---- */

static struct stored *log_of(const struct actor *actor)
{
    return &run.stores[actor->log];
}

static void store(struct stored *log, const ulfm_entry *entry)
{
    if (log->length == LENGTH) {
        check(false, "the log is full");
        return;
    }
    log->entries[log->length] = *entry;
    log->taken[log->length++] = model_take(&log->model, entry);
}

/* Asks for an entry to be stored, later: as often as chance has it, or never. */
static void offer(struct stored *log, const ulfm_entry *entry)
{
    static const unsigned often[] = {0, 1, 1, 1, 1, 1, 1, 2, 2, 3};
    for (unsigned left = often[some(10)]; left > 0 && log->waits < WAITING; left--)
        log->waiting[log->waits++] = *entry;
}

/* One of those that wait comes, whichever it is. */
static void arrive(struct stored *log)
{
    if (log->waits == 0)
        return;
    unsigned at = some(log->waits);
    ulfm_entry entry = log->waiting[at];
    log->waiting[at] = log->waiting[--log->waits];
    store(log, &entry);
}

/* Declares whoever is due, until the log has it. */
static void declare(struct stored *log)
{
    ulfm_entry entry;
    for (unsigned rank = 0; rank < run.ranks; rank++)
        if (run.turn >= log->due[rank] && log->model.declared_at[rank] == NEVER && one_in(4)) {
            ulfm_failure_entry((uint16_t)rank, &entry);
            offer(log, &entry);
        }
}

/* Small numbers in all fields. */
static ulfm_entry forged(void)
{
    return entry_of((struct fields){1 + some(7), some(8) != 0, some(run.ranks), some(run.comms + 1), some(run.rounds + 1),
                                    some(run.ranks + 1), some(3), some(2), chance() | chance()});
}

/* One field of an entry is another. */
static ulfm_entry changed(const ulfm_entry *entry)
{
    struct fields it = fields_of(entry);
    unsigned *const fields[] = {&it.kind, &it.named, &it.by, &it.comm, &it.round, &it.rank, &it.known, &it.acked};
    *fields[some(8)] = some(6);
    return entry_of(it);
}

/* Puts an entry into the log that no replica wants there: bytes of no kind, one that was there before, one with another field, a forged one. What
 * is legal is left away, but in runs that are hostile. */
static void intrude(struct stored *log)
{
    ulfm_entry entry;
    const ulfm_entry *before = log->length > 0 ? &log->entries[some((unsigned)log->length)] : &log->waiting[0];
    unsigned sort = some(4);
    for (size_t at = 0; at < sizeof entry.bytes; at++)
        entry.bytes[at] = (unsigned char)some(256);
    if (sort == 1)
        entry = *before;
    else if (sort == 2)
        entry = changed(before);
    else if (sort == 3)
        entry = forged();
    if (run.intrusions-- > 0 && (run.is_hostile || !is_legal(&log->model, &entry)))
        store(log, &entry);
}

/* ---- feeding ---- */

static void feed(struct actor *actor, const ulfm_entry *entry)
{
    struct stored *log = log_of(actor);
    uint64_t at = actor->replica.fed;
    uint32_t fed = 99;
    check(replica_feed(&actor->replica, entry, &fed) == ULFM_SUCCESS, "an entry isn't fed");
    check((fed != ULFM_LEFT_OUT) == log->taken[at], "an entry is taken that isn't legal, or left out though it is");
    check(fed != ULFM_OWN || memcmp(entry, &actor->wanted, sizeof *entry) == 0, "an entry is taken as its own that it didn't want");
    all.entries++;
    all.left_out += fed == ULFM_LEFT_OUT;
}

static void feed_some(struct actor *actor, unsigned most)
{
    struct stored *log = log_of(actor);
    for (unsigned left = some(most + 1); left > 0 && actor->replica.fed < log->length; left--) {
        const ulfm_entry *next = &log->entries[actor->replica.fed];
        if (is_swapping && !is_swapped && actor->replica.fed + 1 < log->length && memcmp(next, next + 1, sizeof *next) != 0 && one_in(20)) {
            is_swapped = true;
            feed(actor, next + 1);
            feed(actor, next);
        } else {
            feed(actor, next);
        }
    }
}

/* ---- what answers have to be ---- */

/* Whether the failed group that the rank's calls have seen begins so. */
static bool same_group(struct actor *actor, unsigned comm, const uint16_t *group, unsigned count)
{
    uint16_t found[MOST];
    size_t there = 0;
    return ulfm_replica_group(&actor->replica.rank, (uint16_t)comm, found, MOST, &there) == ULFM_SUCCESS && there >= count &&
           memcmp(found, group, count * sizeof *group) == 0;
}

static void check_members(struct actor *actor, unsigned comm, unsigned size)
{
    const struct model *model = &log_of(actor)->model;
    uint16_t found[MOST];
    size_t there = 0, count = 0;
    check(ulfm_members(&actor->replica.rank, (uint16_t)comm, found, MOST, &there) == ULFM_SUCCESS, "a communicator that was told isn't held");
    for (uint16_t rank = 0; rank < run.ranks; rank++)
        if (model->comm[comm].has[rank])
            check(count < there && found[count] == rank, "a communicator has other members"), count++;
    check(count == there && count == size, "a communicator has another size");
}

/* The same behind a get_failed: what was decided may be more than the poll itself saw. A rank that is refused there isn't asked. */
static bool same_decided_group(struct actor *actor, unsigned comm, const struct decision *it)
{
    ulfm_entry entry;
    ulfm_reply reply;
    int code = 99;
    uint32_t ran = 99;
    bool is_begun = ulfm_begin_get_failed(&actor->replica.rank, (uint16_t)comm) == ULFM_SUCCESS;
    if (!is_begun || ulfm_run(&actor->replica.rank, &entry, &reply, &code, &ran) != ULFM_SUCCESS || ran != ULFM_ANSWERED)
        return false;
    return code == ULFM_ERR_SELF_FAILED || (code == ULFM_SUCCESS && same_group(actor, comm, it->group, it->failed));
}

/* Of an agree or a shrink that a poll answered. */
static void check_agreement(struct actor *actor, struct answer *answer)
{
    const struct model *model = &log_of(actor)->model;
    uint64_t fed = actor->replica.fed;
    struct decision it = decided(model, answer->comm, answer->round);
    unsigned made = made_of(model, answer->comm, answer->round);
    const ulfm_reply *reply = &answer->reply;
    check(it.at < fed, "it is answered before it is decided");
    if (answer->code == ULFM_ERR_MISMATCH) {
        check(it.about == CLASH, "a mismatch is answered where there is none");
    } else if (answer->code == ULFM_ERR_NO_CONTEXT) {
        check(it.about == CONTEXTS && it.bits == 0, "no context is answered where there is one");
    } else if (answer->code == ULFM_ERR_NO_ROOM) {
        check(it.about == CONTEXTS && made == 0 && model->made == run.comms, "no room is answered where there is some");
    } else if (answer->code == ULFM_SUCCESS && reply->kind == ULFM_AGREED) {
        check(it.about == FLAGS && reply->flag == it.bits, "another flag than was contributed");
        check(reply->failed == it.failed && reply->raised == it.raised, "another count of failures, or another error, than was decided");
        check(same_decided_group(actor, answer->comm, &it), "another failed group than was decided");
        memcpy(answer->failed, it.group, it.failed * sizeof *it.group);
    } else if (answer->code == ULFM_SUCCESS && reply->kind == ULFM_SHRUNK) {
        check(it.about == CONTEXTS && made != 0 && model->comm[made].made_at < fed, "a communicator is answered that isn't made");
        check(reply->comm == made && (it.bits >> reply->context & 1) != 0 && it.bits << (63 - reply->context) << 1 == 0, "another communicator or context");
        check_members(actor, made, reply->size);
    } else {
        check(false, "a code that no agree and no shrink may be answered");
    }
}

static void check_barrier(struct actor *actor, const struct answer *answer)
{
    const struct model *model = &log_of(actor)->model;
    uint64_t fed = actor->replica.fed;
    bool all_there = true, dead_lacks = false;
    for (unsigned rank = 0; rank < run.ranks; rank++)
        if (model->comm[answer->comm].has[rank] && model->arrived_at[answer->comm][answer->round][rank] >= fed) {
            all_there = false;
            dead_lacks = dead_lacks || model->declared_at[rank] < fed;
        }
    if (answer->code == ULFM_SUCCESS)
        check(answer->reply.kind == ULFM_DONE && all_there, "a barrier is over where not all have come");
    else if (answer->code == ULFM_ERR_PROC_FAILED)
        check(dead_lacks, "a barrier fails where nobody who failed is missing");
    else
        check(answer->code == ULFM_ERR_REVOKED && model->comm[answer->comm].revoked_at < fed, "a code that no barrier may be answered");
}

/* A refusal that ends a replica: whether it is one. */
static bool is_refused(struct actor *actor, int code)
{
    struct stored *log = log_of(actor);
    unsigned number = actor->replica.number;
    bool is_declared = log->model.declared_at[number] < actor->replica.fed;
    check(code == ULFM_ERR_SELF_FAILED || log->model.declared_at[number] >= actor->begun, "a declared rank is answered");
    if (code != ULFM_ERR_SELF_FAILED && code != ULFM_ERR_TWICE)
        return false;
    check(code == ULFM_ERR_TWICE ? run.is_hostile : is_declared, "a rank is refused that isn't declared");
    actor->fate = REFUSED;
    if (!is_declared)
        log->due[number] = run.turn;
    return true;
}

/* ---- a replica's turn ---- */

static enum verb verb_of(const struct actor *actor)
{
    enum verb verb = run.plan[actor->step];
    bool is_odd = actor->replica.number == run.odd && actor->step == run.odd_step;
    return is_odd && verb != BARRIER ? (enum verb)(AGREE + SHRINK - verb) : verb;
}

static unsigned *round_of(struct actor *actor)
{
    return verb_of(actor) == BARRIER ? &actor->barriers[actor->comm] : &actor->rounds[actor->comm];
}

/* What the step of the plan came to; then it is the next one's turn. */
static void keep(struct actor *actor, int code, const ulfm_reply *reply, bool is_start)
{
    struct answer *answer = &actor->answers[actor->step];
    *answer = (struct answer){.is_there = true, .code = code, .comm = actor->comm, .round = *round_of(actor)};
    if (code == ULFM_SUCCESS)
        answer->reply = *reply;
    if (is_start)
        check(code == ULFM_ERR_ROUNDS_USED_UP && answer->round + (verb_of(actor) == AGREE) >= run.rounds, "a code that no start may be answered");
    else if (verb_of(actor) == BARRIER)
        check_barrier(actor, answer);
    else
        check_agreement(actor, answer);
    all.answers++;
    *round_of(actor) += !is_start;
    if (code == ULFM_SUCCESS && reply->kind == ULFM_SHRUNK) {
        actor->old = actor->comm;
        actor->comm = reply->comm;
    }
    actor->doing = BEGINS;
    if (++actor->step == run.steps)
        actor->fate = ENDED;
}

static void check_side(struct actor *actor, int code, const ulfm_reply *reply)
{
    const struct stored *log = log_of(actor);
    uint64_t fed = actor->replica.fed, revoked = log->model.comm[actor->comm].revoked_at;
    uint16_t group[MOST];
    unsigned known = failed_by(&log->model, actor->comm, fed, group), *acked = &actor->acked[actor->comm];
    unsigned first = actor->side == ACK && actor->count < known ? actor->count : known;
    check(code == ULFM_SUCCESS, "a code that no such call may be answered");
    if (actor->side == GET_FAILED)
        check(reply->failed == known && same_group(actor, actor->comm, group, known), "another failed group than the log has");
    if (actor->side == ACK || actor->side == FAILURE_ACK)
        *acked = first > *acked ? first : *acked;
    if (actor->side == ACK || actor->side == FAILURE_ACK || actor->side == GET_ACKED)
        check(reply->failed == *acked, "another count of acknowledgements");
    if (actor->side == IS_REVOKED)
        check(reply->failed == (revoked < fed), "another answer to whether it is revoked");
    if (actor->side == REVOKE) {
        check(revoked < fed, "a revocation is answered that isn't in the log");
        struct fields by = fields_of(&log->entries[revoked < fed ? revoked : 0]);
        bool is_first = revoked >= actor->begun && by.named == 1 && by.by == actor->replica.number;
        check(run.is_hostile || reply->failed == is_first, "another answer to whether it revoked");
    }
}

static int begin_side(struct actor *actor)
{
    ulfm_handle *rank = &actor->replica.rank;
    uint16_t comm = (uint16_t)actor->comm, old = (uint16_t)actor->old;
    actor->side = (enum side)some(SIDES);
    actor->count = some(4);
    switch (actor->side) {
    case ACK: return ulfm_begin_ack_failed(rank, comm, (uint16_t)actor->count);
    case FAILURE_ACK: return ulfm_begin_failure_ack(rank, comm);
    case GET_ACKED: return ulfm_begin_failure_get_acked(rank, comm);
    case IS_REVOKED: return ulfm_begin_is_revoked(rank, comm);
    case REVOKE:
        if (run.revokes && one_in(6))
            return ulfm_begin_revoke(rank, comm);
        break;
    case FREE:
        actor->old = 0;
        if (old != 0)
            return ulfm_begin_free(rank, old);
        break;
    default: break;
    }
    actor->side = GET_FAILED;
    return ulfm_begin_get_failed(rank, comm);
}

static int begin_step(struct actor *actor)
{
    ulfm_handle *rank = &actor->replica.rank;
    uint16_t comm = (uint16_t)actor->comm;
    switch (verb_of(actor)) {
    case AGREE: return ulfm_begin_agree(rank, comm, chance() | chance());
    case SHRINK: return ulfm_begin_shrink(rank, comm);
    default: return ulfm_begin_barrier(rank, comm);
    }
}

/* Begins a call: one beside the plan, the step's start, or a poll, once anything was fed since the last one began. */
static void begin(struct actor *actor)
{
    uint64_t fed = actor->replica.fed;
    int code = ULFM_SUCCESS;
    actor->begun = fed;
    if (one_in(4)) {
        actor->behind = actor->doing;
        actor->doing = ASKS;
        code = begin_side(actor);
    } else if (actor->doing == BEGINS) {
        actor->doing = STARTS;
        actor->looked = NEVER;
        code = begin_step(actor);
    } else if (actor->looked != fed || one_in(16)) {
        actor->doing = POLLS;
        actor->looked = fed;
        code = ulfm_begin_poll(&actor->replica.rank, (uint16_t)actor->comm);
    }
    check(code == ULFM_SUCCESS, "a call can't be begun");
}

static void answered(struct actor *actor, int code, const ulfm_reply *reply)
{
    if (is_refused(actor, code))
        return;
    if (actor->doing == ASKS) {
        check_side(actor, code, reply);
        actor->doing = actor->behind;
    } else if (actor->doing == STARTS && code == ULFM_SUCCESS) {
        actor->doing = WAITS;
    } else if (actor->doing == POLLS && code == ULFM_SUCCESS && reply->kind == ULFM_PENDING) {
        actor->doing = WAITS;
    } else {
        keep(actor, code, reply, actor->doing == STARTS);
    }
}

/* Runs on with the call that is under way. */
static void go_on(struct actor *actor)
{
    struct stored *log = log_of(actor);
    ulfm_entry entry = {{0}};
    ulfm_reply reply = ULFM_REPLY_INIT;
    int code = 99;
    uint32_t ran = 99;
    check(ulfm_run(&actor->replica.rank, &entry, &reply, &code, &ran) == ULFM_SUCCESS && ran != ULFM_IDLE, "no call is under way");
    if (ran == ULFM_ANSWERED) {
        answered(actor, code, &reply);
        return;
    }
    check(entry.bytes[1] == 1 && number_at(&entry, 2) == actor->replica.number, "an entry is wanted in another's name");
    check(actor->replica.fed < log->length || is_legal(&log->model, &entry), "an entry is wanted that isn't legal");
    if (memcmp(&entry, &actor->wanted, sizeof entry) != 0 || one_in(40)) {
        actor->wanted = entry;
        offer(log, &entry);
    }
}

static void take_turn(struct actor *actor)
{
    if (run.turn >= run.dies[actor->replica.number]) {
        actor->fate = DIED;
        for (unsigned log = 0; log < 2; log++)
            run.stores[log].due[actor->replica.number] = run.turn + some(300);
    } else if (one_in(actor->pace)) {
        feed_some(actor, one_in(3) ? 1 : MUCH * actor->pace);
    } else if (actor->doing == BEGINS || actor->doing == WAITS) {
        begin(actor);
    } else {
        go_on(actor);
    }
}

/* ---- a run ---- */

/* Half of the replicas read on in another log, which begins as this one. In each the other's ranks are found to have failed. */
static void fork_log(void)
{
    unsigned split = 1 + some(run.ranks - 1);
    run.logs = 2;
    run.stores[1] = run.stores[0];
    for (unsigned rank = 0; rank < run.ranks; rank++) {
        run.actors[rank].log = rank >= split;
        run.stores[rank < split].due[rank] = run.turn + some(300);
    }
}

static void begin_run(uint64_t seed)
{
    state = seed;
    chance();
    memset(&run, 0, offsetof(struct run, actors));
    run.ranks = 2 + some(MOST - 1);
    run.comms = 1 + some(MODEL_COMMS);
    run.rounds = one_in(3) ? 2 + some(3) : MODEL_ROUNDS;
    run.steps = 3 + some(STEPS - 2);
    run.logs = 1;
    run.revokes = one_in(3);
    run.is_hostile = one_in(8);
    run.odd = one_in(8) && run.rounds == MODEL_ROUNDS ? some(run.ranks) : MOST;
    run.odd_step = some(run.steps);
    run.intrusions = (int)some(40);
    run.fork = one_in(8) ? some(600) : NEVER;
    run.wrong = NULL;
    for (unsigned step = 0; step < run.steps; step++)
        run.plan[step] = (enum verb[]){AGREE, AGREE, AGREE, SHRINK, SHRINK, BARRIER}[some(6)];
    for (unsigned log = 0; log < 2; log++) {
        run.stores[log].length = run.stores[log].waits = 0;
        memset(run.stores[log].due, 255, sizeof run.stores[log].due);
    }
    model_open(&run.stores[0].model, run.ranks, run.comms, run.rounds);
    for (unsigned rank = 0; rank < run.ranks; rank++) {
        struct actor *actor = &run.actors[rank];
        memset((char *)actor + sizeof actor->replica, 0, sizeof *actor - sizeof actor->replica);
        actor->pace = (unsigned[]){2, 2, 2, 3, 10, 40}[some(6)];
        struct log_world world = {(uint16_t)run.ranks, (uint16_t)run.comms, (uint16_t)run.rounds};
        check(replica_open(&actor->replica, NULL, (uint16_t)rank, world) == ULFM_SUCCESS, "a replica isn't opened");
        run.dies[rank] = NEVER;
    }
    for (unsigned victims = some(3); victims > 0; victims--)
        run.dies[some(run.ranks)] = some(1200);
    if (one_in(10))
        run.stores[0].due[some(run.ranks)] = some(1200);
    is_swapped = false;
}

static bool somebody_lives(void)
{
    for (unsigned rank = 0; rank < run.ranks; rank++)
        if (run.actors[rank].fate == LIVES)
            return true;
    return false;
}

static void go(void)
{
    for (run.turn = 0; run.wrong == NULL && somebody_lives(); run.turn++) {
        struct actor *actor = &run.actors[some(run.ranks)];
        struct stored *log = &run.stores[some(run.logs)];
        unsigned what = some(100);
        if (run.turn == run.fork)
            fork_log();
        if (what < 25)
            arrive(log);
        else if (what < 28)
            intrude(log);
        else if (what < 31)
            declare(log);
        else if (actor->fate == LIVES)
            take_turn(actor);
        check(run.turn < TURNS, "somebody hangs");
    }
}

/* ---- what is compared behind a run ---- */

static bool same_answer(const struct answer *one, const struct answer *other)
{
    const ulfm_reply *a = &one->reply, *b = &other->reply;
    return one->code == other->code && one->comm == other->comm && one->round == other->round && a->flag == b->flag && a->kind == b->kind &&
           a->failed == b->failed && a->comm == b->comm && a->context == b->context && a->size == b->size && a->raised == b->raised &&
           memcmp(one->failed, other->failed, sizeof one->failed) == 0;
}

/* Whether two were answered alike in all agrees and shrinks that both were answered. */
static bool alike(const struct actor *one, const struct actor *other)
{
    for (unsigned step = 0; step < run.steps; step++)
        if (run.plan[step] != BARRIER && one->answers[step].is_there && other->answers[step].is_there &&
            !same_answer(&one->answers[step], &other->answers[step]))
            return false;
    return true;
}

/* What two digests have to tell, by what the two were fed. */
static enum replica_compared truth(const struct actor *one, const struct actor *other)
{
    uint64_t fed = other->replica.fed;
    if (fed > one->replica.fed || one->replica.fed - fed >= REPLICA_MARKS)
        return REPLICA_UNKNOWN;
    return memcmp(log_of(one)->entries, log_of(other)->entries, fed * sizeof(ulfm_entry)) == 0 ? REPLICA_SAME : REPLICA_FORKED;
}

static void compare_all(void)
{
    bool differ = false;
    for (unsigned one = 0; one < run.ranks; one++)
        for (unsigned other = 0; other < run.ranks; other++) {
            const struct actor *mine = &run.actors[one], *theirs = &run.actors[other];
            bool is_alike = alike(mine, theirs);
            check(is_alike || mine->log != theirs->log, "two replicas over one log were answered otherwise");
            differ = differ || !is_alike;
        }
    all.forked += run.logs == 2;
    all.differ += differ && run.logs == 2;
}

static void compare_digests(void)
{
    for (unsigned one = 0; one < run.ranks; one++)
        for (unsigned other = 0; other < run.ranks; other++) {
            const struct actor *mine = &run.actors[one], *theirs = &run.actors[other];
            check(replica_compare(&mine->replica, replica_mark(&theirs->replica)) == truth(mine, theirs), "digests tell otherwise");
        }
}

static FILE *opened(const char *folder, uint64_t seed, const char *end)
{
    char name[512];
    snprintf(name, sizeof name, "%s/%llu.%s", folder, (unsigned long long)seed, end);
    FILE *file = fopen(name, "wb");
    if (file == NULL)
        perror(name), exit(2);
    return file;
}

/* Keeps the first log of a run, and what the model decides behind which entry. */
static void keep_log(const char *folder, uint64_t seed)
{
    const struct stored *log = &run.stores[0];
    FILE *kept = opened(folder, seed, "log"), *said = opened(folder, seed, "said");
    unsigned char head[LOG_HEAD];
    uint64_t taken = 0;
    log_head((struct log_world){(uint16_t)run.ranks, (uint16_t)run.comms, (uint16_t)run.rounds}, head);
    fwrite(head, sizeof head, 1, kept);
    fwrite(log->entries, sizeof *log->entries, log->length, kept);
    for (uint64_t at = 0; at < log->length; at++) {
        struct fields it = fields_of(&log->entries[at]);
        taken += log->taken[at];
        if (!log->taken[at] || it.kind < AN_AGREE || it.kind > A_MARK)
            continue;
        struct decision decision = decided(&log->model, it.comm, it.round);
        if (decision.at == at)
            say_decided(said, it.comm, it.round, &decision);
    }
    fprintf(said, "entries %llu taken %llu\n", (unsigned long long)log->length, (unsigned long long)taken);
    fclose(kept);
    fclose(said);
}

static void end_run(void)
{
    /* some read on, and others don't */
    for (unsigned rank = 0; rank < run.ranks; rank++)
        if (run.wrong == NULL && one_in(2))
            feed_some(&run.actors[rank], LENGTH);
    compare_all();
    bool is_found = run.wrong != NULL;
    compare_digests();
    all.by_digests += !is_found && run.wrong != NULL;
    all.wrong += run.wrong != NULL;
    all.swapped += is_swapped;
    all.runs++;
    all.ranks += run.ranks;
    for (unsigned rank = 0; rank < run.ranks; rank++) {
        all.deaths += run.actors[rank].fate == DIED;
        all.declared += run.stores[0].model.declared_at[rank] != NEVER;
        replica_close(&run.actors[rank].replica);
    }
}

static void tell(void)
{
#define NUMBER(name) (unsigned long long)all.name
    printf("%llu ranks, %llu deaths, %llu declared; %llu entries fed, %llu left out; %llu answers\n", NUMBER(ranks), NUMBER(deaths), NUMBER(declared),
           NUMBER(entries), NUMBER(left_out), NUMBER(answers));
    if (is_swapping)
        printf("%llu runs with two entries swapped, %llu found wrong by what was answered or taken, %llu more by digests alone\n", NUMBER(swapped),
               NUMBER(wrong) - NUMBER(by_digests), NUMBER(by_digests));
    printf("%llu runs, %llu of them over a forked log, of which %llu were answered otherwise; %llu wrong\n", NUMBER(runs), NUMBER(forked), NUMBER(differ),
           NUMBER(wrong));
}

int main(int words, char **word)
{
    enum { ENOUGH = 400 };
    if (words < 3 || words > 4)
        return fprintf(stderr, "usage: random_replicas RUNS SEED [swapped | FOLDER]\n"), 2;
    is_swapping = words == 4 && strcmp(word[3], "swapped") == 0;
    uint64_t runs = strtoull(word[1], NULL, 10), seed = strtoull(word[2], NULL, 10);
    for (uint64_t at = 0; at < runs && (is_swapping || all.wrong == 0); at++) {
        begin_run(seed + at);
        go();
        end_run();
        if (words == 4 && !is_swapping)
            keep_log(word[3], seed + at);
        if (run.wrong != NULL && !is_swapping)
            printf("the run of seed %llu is wrong, at turn %llu: %s\n", (unsigned long long)(seed + at), (unsigned long long)run.turn, run.wrong);
    }
    tell();
    /* among so many runs there are forked logs whose readers differ */
    if (all.runs >= ENOUGH && all.differ == 0)
        return printf("no run over a forked log was answered otherwise\n"), 1;
    return all.wrong != 0;
}
