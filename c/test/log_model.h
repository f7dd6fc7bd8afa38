/* What a log says, worked out once more in plain C by the page of formats: which entries are legal behind those before them, and what each round
 * decides. For small worlds; tests compare what replicas answer with it. Everything is kept with the number of the entry that told it, so that
 * one model tells of each beginning of its log. */
#ifndef LOG_MODEL_H
#define LOG_MODEL_H

#include "ulfm.h"

#include <stdio.h>
#include <string.h>

enum { MODEL_RANKS = 8, MODEL_COMMS = 4, MODEL_ROUNDS = 12 };
enum { A_FAILURE = 1, AN_AGREE, A_SHRINK, A_MARK, AN_ARRIVAL, A_REVOCATION, A_COMMUNICATOR };

/* The number of the entry of what hasn't happened. */
#define NEVER UINT64_MAX

struct fields {
    unsigned kind, named, by, comm, round, rank, known, acked;
    uint64_t flag;
};

struct slot {
    uint64_t at;
    struct fields given;
};

struct model_comm {
    bool has[MODEL_RANKS];
    uint64_t made_at, revoked_at;
    unsigned parent, round;
};

struct model {
    unsigned ranks, comms, rounds, made, failures;
    uint64_t length, declared_at[MODEL_RANKS];
    unsigned failed[MODEL_RANKS]; /* in the order of the declarations */
    struct model_comm comm[MODEL_COMMS];
    struct slot slot[MODEL_COMMS][MODEL_ROUNDS][MODEL_RANKS];
    uint64_t arrived_at[MODEL_COMMS][MODEL_ROUNDS][MODEL_RANKS];
};

/* What a round decided, and behind which entry: NEVER, where it isn't decided. */
enum about { NOBODY, FLAGS, CONTEXTS, CLASH };
struct decision {
    uint64_t at, bits;
    enum about about;
    unsigned failed;
    uint16_t group[MODEL_RANKS];
    bool raised;
};

static inline void model_open(struct model *model, unsigned ranks, unsigned comms, unsigned rounds)
{
    memset(model, 0, sizeof *model);
    model->ranks = ranks;
    model->comms = comms;
    model->rounds = rounds;
    model->made = 1;
    for (unsigned rank = 0; rank < MODEL_RANKS; rank++) {
        model->declared_at[rank] = NEVER;
        model->comm[0].has[rank] = rank < ranks;
    }
    for (unsigned comm = 0; comm < MODEL_COMMS; comm++) {
        model->comm[comm].made_at = model->comm[comm].revoked_at = NEVER;
        for (unsigned round = 0; round < MODEL_ROUNDS; round++)
            for (unsigned rank = 0; rank < MODEL_RANKS; rank++)
                model->slot[comm][round][rank].at = model->arrived_at[comm][round][rank] = NEVER;
    }
    model->comm[0].made_at = 0;
}

static inline unsigned number_at(const ulfm_entry *entry, int at)
{
    return entry->bytes[at] | (unsigned)entry->bytes[at + 1] << 8;
}

static inline void put_number(ulfm_entry *entry, int at, unsigned number)
{
    entry->bytes[at] = (unsigned char)(number % 256);
    entry->bytes[at + 1] = (unsigned char)(number / 256 % 256);
}

static inline struct fields fields_of(const ulfm_entry *entry)
{
    struct fields it = {entry->bytes[0],     entry->bytes[1],     number_at(entry, 2),  number_at(entry, 4), number_at(entry, 6),
                        number_at(entry, 8), number_at(entry, 10), number_at(entry, 12), 0};
    for (int at = 0; at < 8; at++)
        it.flag |= (uint64_t)entry->bytes[16 + at] << 8 * at;
    return it;
}

static inline ulfm_entry entry_of(struct fields it)
{
    ulfm_entry entry = {{(unsigned char)it.kind, (unsigned char)it.named}};
    const unsigned numbers[] = {it.by, it.comm, it.round, it.rank, it.known, it.acked};
    for (int at = 0; at < 6; at++)
        put_number(&entry, 2 + 2 * at, numbers[at]);
    for (int at = 0; at < 8; at++)
        entry.bytes[16 + at] = (unsigned char)(it.flag >> 8 * at & 255);
    return entry;
}

/* Whether these are an entry's bytes: what its kind doesn't use is 0. */
static inline bool is_entry(const ulfm_entry *entry)
{
    struct fields it = fields_of(entry), used = {it.kind, it.named, it.by, 0, 0, 0, 0, 0, 0};
    if (it.kind < A_FAILURE || it.kind > A_COMMUNICATOR || it.named > 1 || (it.named == 0 && it.by != 0))
        return false;
    used.comm = it.kind == A_FAILURE ? 0 : it.comm;
    used.round = it.kind == A_FAILURE || it.kind == A_REVOCATION ? 0 : it.round;
    used.rank = it.kind == A_REVOCATION ? 0 : it.rank;
    used.known = it.kind == AN_AGREE || it.kind == A_SHRINK || it.kind == A_MARK ? it.known : 0;
    used.acked = it.kind == AN_AGREE || it.kind == A_SHRINK ? it.acked : 0;
    used.flag = it.kind == AN_AGREE || it.kind == A_SHRINK ? it.flag : 0;
    ulfm_entry again = entry_of(used);
    return memcmp(&again, entry, sizeof again) == 0 && used.acked <= used.known && used.known <= ULFM_MAX_RANKS && (it.kind != A_MARK || it.known > 0);
}

/* The failed group of a communicator by a point, in its order: how many. */
static inline unsigned failed_by(const struct model *model, unsigned comm, uint64_t point, uint16_t *group)
{
    unsigned count = 0;
    for (unsigned at = 0; at < model->failures; at++)
        if (model->comm[comm].has[model->failed[at]] && model->declared_at[model->failed[at]] < point)
            group[count++] = (uint16_t)model->failed[at];
    return count;
}

static inline struct decision decided(const struct model *model, unsigned comm, unsigned round)
{
    struct decision it = {.at = 0, .bits = UINT64_MAX};
    unsigned known = 0, acked = ULFM_MAX_RANKS;
    for (unsigned rank = 0; rank < model->ranks; rank++) {
        const struct slot *slot = &model->slot[comm][round][rank];
        if (!model->comm[comm].has[rank])
            continue;
        it.at = slot->at > it.at ? slot->at : it.at;
        if (slot->at == NEVER)
            return it;
        known = slot->given.known > known ? slot->given.known : known;
        if (slot->given.kind == A_MARK)
            continue;
        enum about about = slot->given.kind == AN_AGREE ? FLAGS : CONTEXTS;
        it.about = it.about == NOBODY || it.about == about ? about : CLASH;
        it.bits &= slot->given.flag;
        acked = slot->given.acked < acked ? slot->given.acked : acked;
    }
    failed_by(model, comm, NEVER, it.group);
    it.failed = known;
    it.raised = acked < known;
    return it;
}

/* The communicator that was made of a round; 0 where none was. */
static inline unsigned made_of(const struct model *model, unsigned parent, unsigned round)
{
    for (unsigned comm = 1; comm < model->made; comm++)
        if (model->comm[comm].parent == parent && model->comm[comm].round == round)
            return comm;
    return 0;
}

static inline bool may_be_made(const struct model *model, struct fields it)
{
    if (it.comm != model->made || it.comm >= model->comms || it.rank >= model->made || it.round >= model->rounds)
        return false;
    struct decision decision = decided(model, it.rank, it.round);
    return decision.at != NEVER && decision.about == CONTEXTS && decision.bits != 0 && made_of(model, it.rank, it.round) == 0;
}

static inline bool is_at_place(const struct model *model, struct fields it)
{
    return it.comm < model->made && it.round < model->rounds && it.rank < model->ranks && model->comm[it.comm].has[it.rank];
}

/* Whether an entry is legal behind all entries so far. */
static inline bool is_legal(const struct model *model, const ulfm_entry *entry)
{
    struct fields it = fields_of(entry);
    uint16_t group[MODEL_RANKS];
    if (!is_entry(entry))
        return false;
    switch (it.kind) {
    case A_FAILURE: return it.rank < model->ranks && model->declared_at[it.rank] == NEVER;
    case AN_ARRIVAL: return is_at_place(model, it) && model->arrived_at[it.comm][it.round][it.rank] == NEVER;
    case A_REVOCATION: return it.comm < model->made && model->comm[it.comm].revoked_at == NEVER;
    case A_COMMUNICATOR: return may_be_made(model, it);
    default: break;
    }
    if (!is_at_place(model, it) || model->slot[it.comm][it.round][it.rank].at != NEVER)
        return false;
    unsigned count = failed_by(model, it.comm, NEVER, group);
    return it.known <= count && (it.kind != A_MARK || group[it.known - 1] == it.rank);
}

static inline void make(struct model *model, struct fields it)
{
    struct decision decision = decided(model, it.rank, it.round);
    struct model_comm *comm = &model->comm[model->made++];
    *comm = model->comm[it.rank];
    comm->made_at = model->length;
    comm->revoked_at = NEVER;
    comm->parent = it.rank;
    comm->round = it.round;
    for (unsigned at = 0; at < decision.failed; at++)
        comm->has[decision.group[at]] = false;
}

/* Takes the next entry of the log, or leaves it out: whether it is taken. */
static inline bool model_take(struct model *model, const ulfm_entry *entry)
{
    struct fields it = fields_of(entry);
    bool is_taken = is_legal(model, entry);
    if (is_taken && it.kind == A_FAILURE) {
        model->declared_at[it.rank] = model->length;
        model->failed[model->failures++] = it.rank;
    } else if (is_taken && it.kind == AN_ARRIVAL) {
        model->arrived_at[it.comm][it.round][it.rank] = model->length;
    } else if (is_taken && it.kind == A_REVOCATION) {
        model->comm[it.comm].revoked_at = model->length;
    } else if (is_taken && it.kind == A_COMMUNICATOR) {
        make(model, it);
    } else if (is_taken) {
        model->slot[it.comm][it.round][it.rank] = (struct slot){model->length, it};
    }
    model->length++;
    return is_taken;
}

/* The line of a decision, as `ulfm replay` prints it. */
static inline void say_decided(FILE *file, unsigned comm, unsigned round, const struct decision *it)
{
    static const char *const about[] = {" nobody", " flag ", " ctx ", " mismatch"};
    fprintf(file, "decided %u %u%s", comm, round, about[it->about]);
    if (it->about == FLAGS || it->about == CONTEXTS)
        fprintf(file, it->bits >> 32 != 0 ? "%016llx" : "%08llx", (unsigned long long)it->bits);
    fprintf(file, " failed %u %s\n", it->failed, it->raised ? "raised" : "clean");
}

#endif
