"""Logs that are hard to judge, for observed_test: each asks for a hitting set.

All ranks shrink the world so often that there is a communicator for each of some sets of ranks. On each all but those of its set agree. Then rank 0
acknowledges all failures and hears how many there are, and polls each agreement, which is pending. So among those who haven't failed there is a
member of each set: the log is explained exactly where so many ranks can be left that each set has one of them. Nothing names who failed.
"""
import itertools


def random_sets(rng, ranks, count):
    """Sets of two to four ranks, none of which is rank 0."""
    return [frozenset(rng.sample(range(1, ranks), rng.randint(2, min(4, ranks - 1)))) for _ in range(count)]


def is_hit(ranks, sets, left):
    """Whether so many ranks, beside rank 0, can have one of each set among them."""
    return any(all(them & set(chosen) for them in sets) for chosen in itertools.combinations(range(1, ranks), left))


def hitting(ranks, sets, left):
    """The log, where so many ranks beside rank 0 are left."""
    lines, everybody = [], " ".join(map(str, range(ranks)))
    for number, _ in enumerate(sets, 1):
        lines += [f"call shrink {rank} 0" for rank in range(ranks)]
        lines += [f"reply {rank} shrunk {number} context * members {everybody}" for rank in range(ranks)]
    for number, them in enumerate(sets, 1):
        for rank in set(range(ranks)) - them:
            lines += [f"call agree {rank} {number} ffffffff", f"reply {rank} started"]
    lines += ["call ack 0 0 1024", f"reply 0 acked {ranks - 1 - left}"]
    for number, _ in enumerate(sets, 1):
        lines += [f"call poll 0 {number}", "reply 0 pending"]
    head = f"ulfm-observed 1 {ranks} {len(sets) + 1} {len(sets) + 2} time any"
    return "\n".join([head] + lines) + "\n"


def hard(rng):
    """A log, and whether it is explained."""
    ranks = rng.randint(4, 10)
    sets = random_sets(rng, ranks, rng.randint(2, 9))
    left = rng.randint(1, min(4, ranks - 2))
    return hitting(ranks, sets, left), is_hit(ranks, sets, left)
