"""Rooms: trees of their own in which commands of the toolchain run side by side.

One command at a time works in a crate, since the toolchain locks it with all crates below it. So a command that is to run beside others gets
a tree of its own: a crate, those below it, and what was built of these. What it builds is moved back to the repository's out/.
"""
import os
import shutil
import signal
import subprocess
import tempfile
import threading

# what of a crate is no source
LEFT_OUT = ("out", "must-fail")
# the commands under way, so that all can be ended
running, lock = set(), threading.Lock()


class Room:
    """A tree with one crate and those below it. Those below are linked with what was built of them, and the crate is copied; what was built
    of it is copied too, or moved where the room takes it."""

    def __init__(self, crates, name, takes=False):
        self.crates, self.name, self.takes = crates, name, takes
        self.root = tempfile.mkdtemp(prefix="ulfm-room-", dir=place_for(crates.root))
        self.folder = f"{self.root}/crates/{name}"

    def __enter__(self):
        try:
            self.lay()
        except BaseException:
            self.__exit__()
            raise
        return self

    def lay(self):
        below = self.crates.below(self.name)
        with open(f"{self.root}/crates.txt", "w", encoding="utf-8") as it:
            it.write("".join(f"{self.crates.by_name[name].line}\n" for name in [*below, self.name]))
        os.mkdir(f"{self.root}/crates")
        for name in below:
            copy_tree(self.crates.folder(name), f"{self.root}/crates/{name}", "-al")
        lay_crate(self.crates.folder(self.name), self.folder)
        if self.takes:
            move(f"{self.crates.folder(self.name)}/out", f"{self.folder}/out")
        else:
            copy_tree(f"{self.crates.folder(self.name)}/out", f"{self.folder}/out", "-a")

    def __exit__(self, *_):
        if self.takes:
            move(f"{self.folder}/out", f"{self.crates.folder(self.name)}/out")
        shutil.rmtree(self.root, ignore_errors=True)

    def run(self, *words, given=None):
        """Runs the toolchain's command in the crate's folder. Gives its status and all that it printed."""
        return run(["rt", *words], self.folder, given)

    def write(self, path, text):
        with open(f"{self.folder}/{path}", "w", encoding="utf-8") as it:
            it.write(text)


def place_for(root):
    """Where rooms are laid: among temporary files, where the repository's can be linked to, or else in the repository's own out/."""
    place = tempfile.gettempdir()
    if os.stat(place).st_dev != os.stat(root).st_dev:
        place = f"{root}/out"
        os.makedirs(place, exist_ok=True)
    return place


def lay_crate(folder, to):
    shutil.copytree(folder, to, ignore=lambda at, names: [it for it in names if at == folder and it in LEFT_OUT])


def copy_tree(folder, to, how):
    """Copies a tree by `cp`, by links where it can be."""
    if os.path.isdir(folder):
        for flags in dict.fromkeys((how, "-a")):
            if subprocess.run(["cp", flags, folder, to], stderr=subprocess.DEVNULL).returncode == 0:
                return
            shutil.rmtree(to, ignore_errors=True)


def move(folder, to):
    if os.path.isdir(folder):
        shutil.rmtree(to, ignore_errors=True)
        shutil.move(folder, to)


def run(words, folder, given=None):
    """Runs a command in a process group of its own. Gives its status and all that it printed."""
    how = {"cwd": folder, "stdout": subprocess.PIPE, "stderr": subprocess.STDOUT, "start_new_session": True, "text": True, "errors": "replace"}
    with open(given or os.devnull, "rb") as it:
        command = subprocess.Popen(words, stdin=it, **how)
    with lock:
        running.add(command)
    try:
        said, _ = command.communicate()
    finally:
        with lock:
            running.discard(command)
    return command.returncode, said


def end_at_a_signal():
    """Has a signal to end (SIGTERM) be taken as an interrupt is, so that rooms are left in order."""

    def interrupt(*_):
        raise KeyboardInterrupt

    signal.signal(signal.SIGTERM, interrupt)


def end_all():
    """Ends the commands under way, with what they started."""
    with lock:
        for command in running:
            try:
                os.killpg(command.pid, signal.SIGTERM)
            except OSError:
                pass
