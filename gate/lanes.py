"""Tasks that are run side by side, as many as there are processors, while there is memory and room on the disk."""
import os
import tempfile
import time
from concurrent.futures import FIRST_COMPLETED, ThreadPoolExecutor, wait
from dataclasses import dataclass
from typing import Callable

from rooms import end_all

# the memory and the room on the disk, in bytes, that a further check is to find free
FREE = 5_000_000_000
ROOM = int(os.environ.get("ULFM_GATE_ROOM", "6_000_000_000"))
MOST_JOBS = 4


def processors():
    """How many processors there are to use."""
    return len(os.sched_getaffinity(0))


def has_memory():
    """Whether a further check is likely to find its memory."""
    with open("/proc/meminfo", encoding="ascii") as it:
        free = next((line.split()[1] for line in it if line.startswith("MemAvailable:")), None)
    return free is None or int(free) * 1024 > FREE


def has_room():
    """Whether a further check is likely to find room for its files: where the disk is full, a check fails for no fault of what it checks."""
    disk = os.statvfs(tempfile.gettempdir())
    return disk.f_bavail * disk.f_frsize > ROOM


@dataclass
class Task:
    """Something to run: what it waits for, its place among those that are ready (the least comes first), what it costs, alone and with the dearest
    chain of others behind it, and the work, which is told how many jobs it may use and answers whether those behind it can begin."""

    work: Callable
    waits: tuple = ()
    place: tuple = (0,)
    cost: float = 0
    chain: float = 0
    result: object = None


def in_lanes(tasks, is_over=lambda: False, tell=lambda done, running: None, end=end_all):
    """Runs tasks side by side, each once those that it waits for are done. The one with the dearest chain gets half of the processors, where there are
    as many free, since all wait for it in the end; each other one gets one, and more where processors would idle. About once a second `tell` gets how
    many are done and which run. Where it is interrupted, `end` is called, which ends what runs. Gives the keys of those that were not begun: what they
    wait for failed, it was over before, or the disk is full."""
    with ThreadPoolExecutor(processors()) as pool:
        try:
            return run_all(tasks, pool, is_over, tell)
        except BaseException:
            # (the pool waits for what runs)
            end()
            raise


def run_all(tasks, pool, is_over, tell):
    left, running, done = dict(tasks), {}, set()
    while True:
        ready = sorted((it for it in left if done.issuperset(left[it].waits)), key=lambda it: left[it].place)
        for at, key in enumerate(ready):
            idle = processors() - sum(jobs for _, jobs in running.values())
            if idle <= 0 or is_over() or running and not has_memory() or not has_room():
                break
            unfinished = [tasks[it].chain for it in tasks if tasks[it].result is None]
            wanted = processors() // 2 if tasks[key].chain == max(unfinished) > 0 else 1
            jobs = max(1, min(idle, MOST_JOBS, max(wanted, idle // (len(ready) - at))))
            running[pool.submit(left.pop(key).work, jobs)] = key, jobs
        if not running:
            return list(left)
        tell(len(done), [it for it, _ in running.values()])
        for it in wait(running, timeout=1, return_when=FIRST_COMPLETED).done:
            key, _ = running.pop(it)
            tasks[key].result = result_of(it)
            if tasks[key].result:
                done.add(key)


def result_of(future):
    """What a task answered, or that it isn't done where the disk was full."""
    try:
        return future.result()
    except OSError:
        if has_room():
            raise
        return False


def minutes_left(tasks, begun):
    """How many minutes the tasks that aren't done take by their costs, on the processors that there are. `begun` has when each began that runs."""
    left = {it: task.cost for it, task in tasks.items() if task.result is None}
    # (others add to what runs)
    for key, since in list(begun.items()):
        left[key] = max(left.get(key, 0) - (time.monotonic() - since), 0)
    chains = {}
    for key in reversed(list(tasks)):
        above = [chains[it] for it in chains if key in tasks[it].waits]
        chains[key] = left.get(key, 0) + max(above, default=0)
    # (a chain's crates get several jobs where processors idle)
    seconds = max(sum(left.values()) / processors(), max(chains.values(), default=0) / min(2, processors()))
    return round(seconds / 60)
