"""Three hosts, each a namespace with an address of its own, a member of one etcd, and a rank: a member is ended, and then a host."""
import contextlib
import os
import shutil
import signal
import subprocess
import tempfile
import time

import servers

COUNT, LEADS, BRIDGE = 3, "ulfm", "ulfm-bridge"
ADDRESS = "10.213.7.{}"


def ip(*words):
    subprocess.run(["ip", *words], check=True)


class Host:
    """A namespace behind a bridge, with a member of etcd."""

    def __init__(self, number, folder):
        self.number, self.folder, self.space = number, folder, f"{LEADS}-host{number}"
        self.address = ADDRESS.format(number + 1)
        self.inside = ["ip", "netns", "exec", self.space]
        ip("netns", "add", self.space)
        ip("link", "add", f"{LEADS}-wire{number}", "type", "veth", "peer", "name", "wire", "netns", self.space)
        ip("link", "set", f"{LEADS}-wire{number}", "master", BRIDGE, "up")
        for words in (["addr", "add", f"{self.address}/24", "dev", "wire"], ["link", "set", "wire", "up"], ["link", "set", "lo", "up"]):
            ip("-n", self.space, *words)
        self.processes = []

    def member(self):
        return f"http://{self.address}:2379"

    def begin_member(self):
        peers = ",".join(f"m{it}=http://{ADDRESS.format(it + 1)}:2380" for it in range(COUNT))
        data, said = (os.path.join(self.folder, f"{what}{self.number}") for what in ("data", "said"))
        self.etcd = servers.etcd(data, f"m{self.number}", self.member(), f"http://{self.address}:2380", peers, said, self.inside)

    def where(self):
        """The world, with this host's own member first."""
        order = sorted(range(COUNT), key=lambda it: it != self.number)
        return "etcd:hosts@" + ",".join(f"{ADDRESS.format(it + 1)}:2379" for it in order)

    def begin(self, store, *words):
        it = subprocess.Popen([*self.inside, store, self.where(), *words], stdout=subprocess.PIPE, stderr=subprocess.STDOUT)
        self.processes.append(it)
        return it

    def ask(self, path, body):
        """Asks this host's own member, from within."""
        words = [*self.inside, "python3", "-c", "import sys; sys.path.insert(0, sys.argv[1]); import servers, json; print(json.dumps(servers.ask(*sys.argv[2:4], json.loads(sys.argv[4]))))"]
        done = subprocess.run([*words, os.path.dirname(os.path.abspath(__file__)), self.member(), path, body], capture_output=True, text=True, check=True, timeout=20)
        return servers.json.loads(done.stdout)

    def is_leading(self):
        said = self.ask("/v3/maintenance/status", "{}")
        return said["leader"] != "0" and said["leader"] == said["header"]["member_id"]

    def die(self):
        """All at once, and its wire is cut."""
        ip("-n", self.space, "link", "set", "wire", "down")
        for it in (*self.processes, self.etcd):
            it.send_signal(signal.SIGKILL)

    def close(self):
        for it in (*self.processes, self.etcd):
            with contextlib.suppress(OSError):
                it.kill()
            it.wait()
        ip("link", "del", f"{LEADS}-wire{self.number}")
        ip("netns", "del", self.space)


def entries(host, store):
    """How many entries the world's log has."""
    said = subprocess.run([*host.inside, store, host.where(), "dump"], capture_output=True, check=True, timeout=60).stdout
    return len(said) // 24 - 1


def recover(store, passed):
    if os.getuid() != 0 or not shutil.which("ip") or not servers.Etcd.is_there():
        raise SystemExit("it takes root, the program ip and the server etcd")
    with tempfile.TemporaryDirectory(prefix="ulfm-hosts-") as folder:
        ip("link", "add", BRIDGE, "type", "bridge")
        ip("link", "set", BRIDGE, "up")
        hosts = []
        try:
            hosts += [Host(number, folder) for number in range(COUNT)]
            go(hosts, store, passed)
        finally:
            for it in hosts:
                it.close()
            ip("link", "del", BRIDGE)


def go(hosts, store, passed):
    for it in hosts:
        it.begin_member()
    passed("an etcd of three members has a leader", servers.until(lambda: any(it.is_leading() for it in hosts)))
    ranks = [it.begin(store, "rank", str(it.number)) for it in hosts]
    time.sleep(3)
    before = entries(hosts[0], store)
    # the leader itself, so that the others have to choose another
    leader = next(it for it in hosts if it.is_leading())
    leader.etcd.send_signal(signal.SIGKILL)
    leader.etcd.wait()
    time.sleep(8)
    others = [it for it in hosts if it is not leader]
    after = entries(others[0], store)
    passed(f"agreement goes on once the leading member, on host {leader.number}, is ended: {before} entries, and then {after}", 3 < before < after and all(it.poll() is None for it in ranks))
    leader.begin_member()
    passed("it comes back", servers.until(lambda: leader.ask("/v3/maintenance/status", "{}")["leader"] != "0"))
    hosts[2].die()
    declared = subprocess.run([*hosts[0].inside, store, hosts[0].where(), "fail", "2"], timeout=60)
    said = [it.communicate(timeout=60)[0].decode() for it in ranks[:2]]
    saw = [[line for line in it.splitlines() if line.startswith("  ")] for it in said]
    is_right = declared.returncode == 0 and saw[0] == saw[1] and len(saw[0]) == 5 and saw[0][-1] == "  an agree on it: success, flag fffffffc"
    passed("two hosts recover from the end of the third, and see the same:\n" + "\n".join(saw[0]), is_right, "\n".join(said))
