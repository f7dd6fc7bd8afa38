#!/usr/bin/env python3
"""Tests ranks that replay a log of a store: the example, worlds of which one or two processes are killed, a store that ends and begins again, a
forked log. Once `make` has built out/store and out/store_kill. The last line is 'N passed, M failed'.

    test/store.py short                  100 worlds over a file, in some seconds; needs no server
    test/store.py file [RUNS]            2,000 worlds over a file
    test/store.py postgres [RUNS]        200 worlds over a server that is begun for it, and what happens while it is ended and begun again
    test/store.py etcd [RUNS]            the same
    test/store.py hosts                  three hosts in namespaces, with an etcd of three members, of which one is ended; needs to be root
"""
import base64
import os
import re
import shutil
import subprocess
import sys
import tempfile
import time

sys.dont_write_bytecode = True
sys.path.insert(0, os.path.dirname(os.path.abspath(__file__)))
import hosts  # noqa: E402
import servers  # noqa: E402

C = os.path.dirname(os.path.dirname(os.path.abspath(__file__)))
STORE, KILL = (os.path.join(C, "out", it) for it in ("store", "store_kill"))
# a world that goes on while its server is twice away: so many agrees, with so many milliseconds between two
LONG = ["--agrees", "250", "--pause", "20"]
results = []


def passed(what, is_right, said=""):
    results.append(bool(is_right))
    print(f"{'' if is_right else 'failed: '}{what}" + (f"\n{said}" if said and not is_right else ""), flush=True)


def ran(*words):
    try:
        done = subprocess.run(words, stdout=subprocess.PIPE, stderr=subprocess.STDOUT, timeout=7200)
    except subprocess.TimeoutExpired:
        return -1, "it hangs"
    return done.returncode, done.stdout.decode(errors="replace")


def example(pattern):
    """The example, and once more under the sanitizers."""
    with open(os.path.join(C, "examples/store.out"), encoding="utf-8") as it:
        wanted = it.read()
    for program, world in ((STORE, "example"), (f"{STORE}_address", "watched")):
        status, said = ran(program, pattern.replace("%", world))
        passed(f"the example over {pattern.split(':')[0]}, {os.path.basename(program)}", status == 0 and said == wanted, said)


def killed(where, runs):
    status, said = ran(KILL, where, "--runs", str(runs))
    print(said, end="")
    counted = re.search(r"(\d+) runs, (\d+) wrong\n$", said)
    passed(f"{runs} worlds over {where.split(':')[0]}", status == 0 and counted and counted.groups() == (str(runs), "0"))


def forked(one, other):
    status, said = ran(KILL, one, "--forked", other)
    passed(f"a forked log: {said.strip()}", status == 0)


def of_a_file(runs):
    with tempfile.TemporaryDirectory(prefix="ulfm-store-") as folder:
        where = f"file:{folder}/"
        example(where + "%")
        killed(where + "%d", runs)
        forked(where + "one", where + "other")
        of_a_dump(where + "example", folder)


def of_a_dump(where, folder):
    with open(f"{folder}/example", "rb") as it:
        whole = it.read()
    dumped = subprocess.run([STORE, where, "dump"], capture_output=True).stdout
    passed("a dump is the log's file", len(dumped) > 24 * 20 and dumped == whole)
    with open(f"{folder}/example", "rb+") as it:
        it.seek(10)
        it.write(b"\xff")
    status, said = ran(STORE, where, "dump")
    passed("a log of other limits is refused", status == 1 and "another world" in said, said)


def of_a_server(kind, runs):
    if not kind.is_there():
        raise SystemExit(f"the server of {kind.name} isn't there: it comes with Debian's package {'postgresql' if kind is servers.Postgres else 'etcd-server'}")
    server = kind()
    try:
        example(server.where("%"))
        killed(server.where("kill%d"), runs)
        forked(server.where("one"), server.where("other"))
        of_ends_and_begins(server)
        of_etcd(server) if kind is servers.Etcd else of_postgres(server)
    finally:
        server.close()


def of_ends_and_begins(server):
    """The server is ended and begun again while ranks agree, and one of them is killed."""
    begun = time.monotonic()
    with subprocess.Popen([KILL, server.where("long"), *LONG], stdout=subprocess.PIPE, text=True) as ranks:
        for _ in range(2):
            time.sleep(1.5)
            server.end()
            time.sleep(1)
            is_waiting = ranks.poll() is None
            server.begin()
        said = ranks.communicate(timeout=200)[0]
    passed(f"{server.name} ended and begun again, twice: {said.strip()}", is_waiting and ranks.returncode == 0 and time.monotonic() - begun > 5)


def of_postgres(server):
    server.end()
    for setting in ("fsync=off", "synchronous_commit=off"):
        server.settings = [setting]
        server.begin()
        status, said = ran(STORE, server.where("example"), "dump")
        passed(f"{setting} is refused", status == 1 and "not set to keep" in said, said)
        server.end()
    server.settings = []
    server.begin()
    with tempfile.TemporaryDirectory() as folder:
        database = ["-h", "127.0.0.1", "-p", str(server.port), "-U", "ranks", "postgres", "-c"]
        ran("psql", *database, "DELETE FROM ulfm_log WHERE world = 'example' AND number = 3")
        status, said = ran("sh", "-c", f'"{STORE}" "{server.where("example")}" dump > {folder}/dumped')
    passed("a log that lacks an entry is told", status == 1 and "lacks entries" in said, said)


def of_etcd(server):
    key = base64.b64encode(b"ulfm/example/head").decode()
    revision = server.ask("/v3/kv/range", {"key": key})["header"]["revision"]
    server.ask("/v3/kv/compaction", {"revision": revision})
    with tempfile.TemporaryDirectory() as folder:
        status, said = ran("sh", "-c", f'"{STORE}" "{server.where("example")}" dump > {folder}/dumped')
    passed("a compacted log is told", status == 1 and "lacks entries" in said, said)


def main():
    what, runs = (sys.argv[1:] + [""])[:2] if sys.argv[1:] else ("", "")
    if what == "short":
        of_a_file(100)
    elif what == "file":
        of_a_file(int(runs or 2000))
    elif what == "postgres":
        of_a_server(servers.Postgres, int(runs or 200))
    elif what == "etcd":
        of_a_server(servers.Etcd, int(runs or 200))
    elif what == "hosts":
        hosts.recover(STORE, passed)
    else:
        raise SystemExit(__doc__)
    print(f"{results.count(True)} passed, {results.count(False)} failed")
    return int(not all(results))


if __name__ == "__main__":
    sys.exit(main())
