"""Servers of stores, begun by hand in a folder of their own, on loopback, and ended again."""
import contextlib
import json
import os
import pwd
import shutil
import signal
import socket
import subprocess
import tempfile
import time
import urllib.request


def free_port():
    with socket.socket() as it:
        it.bind(("127.0.0.1", 0))
        return it.getsockname()[1]


def until(holds, seconds=30):
    """Waits until something holds; whether it does."""
    end = time.monotonic() + seconds
    while time.monotonic() < end:
        with contextlib.suppress(OSError, subprocess.SubprocessError):
            if holds():
                return True
        time.sleep(0.1)
    return False


class Postgres:
    """A cluster of its own. A server of PostgreSQL refuses to be root, so where this is root it runs as the user postgres, or nobody."""

    name = "postgres"

    def __init__(self, settings=()):
        self.folder = tempfile.mkdtemp(prefix="ulfm-postgres-")
        self.port, self.settings = free_port(), settings
        self.user = next((it for it in ("postgres", "nobody") if os.getuid() == 0 and it in [user.pw_name for user in pwd.getpwall()]), None)
        if self.user:
            shutil.chown(self.folder, self.user)
        self.run("initdb", "-A", "trust", "-U", "ranks")
        self.begin()

    @staticmethod
    def is_there():
        return bool(shutil.which("pg_config")) and os.path.exists(os.path.join(Postgres.programs(), "initdb"))

    @staticmethod
    def programs():
        return subprocess.run(["pg_config", "--bindir"], capture_output=True, text=True, check=True).stdout.strip()

    def run(self, program, *words):
        command = [os.path.join(self.programs(), program), "-D", os.path.join(self.folder, "data"), *words]
        subprocess.run(command, check=True, user=self.user, cwd=self.folder, stdout=subprocess.DEVNULL, stderr=subprocess.DEVNULL)

    def begin(self):
        options = f"-c listen_addresses=127.0.0.1 -p {self.port} -k {self.folder} " + " ".join(f"-c {it}" for it in self.settings)
        self.run("pg_ctl", "-w", "-l", os.path.join(self.folder, "said"), "-o", options, "start")

    def end(self):
        """As by a power cut: nothing is written any more."""
        self.run("pg_ctl", "-w", "-m", "immediate", "stop")

    def where(self, world):
        return f"postgres:{world}@host=127.0.0.1 port={self.port} dbname=postgres user=ranks"

    def close(self):
        self.end()
        shutil.rmtree(self.folder)


class Etcd:
    """A cluster of one member."""

    name = "etcd"

    def __init__(self):
        self.folder = tempfile.mkdtemp(prefix="ulfm-etcd-")
        self.port, self.peers = free_port(), free_port()
        self.begin()

    @staticmethod
    def is_there():
        return bool(shutil.which("etcd"))

    def begin(self):
        client, peer = f"http://127.0.0.1:{self.port}", f"http://127.0.0.1:{self.peers}"
        self.server = etcd(os.path.join(self.folder, "data"), "one", client, peer, f"one={peer}", os.path.join(self.folder, "said"))
        if not until(lambda: status(client)["leader"] != "0"):
            raise SystemExit("etcd doesn't begin")

    def end(self):
        self.server.send_signal(signal.SIGKILL)
        self.server.wait()

    def where(self, world):
        return f"etcd:{world}@127.0.0.1:{self.port}"

    def ask(self, path, body):
        return ask(f"http://127.0.0.1:{self.port}", path, body)

    def close(self):
        self.end()
        shutil.rmtree(self.folder)


def etcd(data, name, client, peer, cluster, said, before=()):
    """One member; `before` is a command that it is run by."""
    words = [*before, "etcd", "--name", name, "--data-dir", data, "--listen-client-urls", client, "--advertise-client-urls", client]
    words += ["--listen-peer-urls", peer, "--initial-advertise-peer-urls", peer, "--initial-cluster", cluster]
    with open(said, "a", encoding="utf-8") as out:
        return subprocess.Popen(words, stdout=out, stderr=out)


def ask(member, path, body):
    request = urllib.request.Request(member + path, json.dumps(body).encode(), {"Content-Type": "application/json"})
    with urllib.request.urlopen(request, timeout=5) as it:
        return json.load(it)


def status(member):
    return ask(member, "/v3/maintenance/status", {})
