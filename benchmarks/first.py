#!/usr/bin/env python3
"""Times the first command of two commits in turn: benchmarks/first.py COMMIT COMMIT.

In a clean clone of each, `./ruu run examples/sum.s` proves and builds what it runs, with a kit of its own that has kept nothing. The
two go on in turn, for a short time each, so that both meet the same machine where its speed changes: all processes of the one stand
still while the other's go on. Printed are the seconds that each went on for, and those of all processors. The clones take some GB
each, in a folder that is removed. It takes half an hour on four processors."""
import argparse
import os
import re
import shutil
import signal
import subprocess
import sys
import tempfile
import time

ROOT = os.path.dirname(os.path.dirname(os.path.realpath(__file__)))

# How many seconds one goes on before it is the other's turn.
TURN = 15


def descendants(pid):
    """A process and all that it has begun, as far as they are there."""
    children = {}
    for it in filter(str.isdigit, os.listdir("/proc")):
        try:
            with open(f"/proc/{it}/stat", encoding="utf-8", errors="replace") as stat:
                parent = int(re.match(r".*\) \S (\d+)", stat.read(), re.S)[1])
        except OSError:
            continue
        children.setdefault(parent, []).append(int(it))
    found = [pid]
    for it in found:
        found += children.get(it, [])
    return found


def kit_in(room):
    """A kit that has kept nothing: what checks keep stands beside the folder of the command `rt`."""
    said = subprocess.run(["rt", "doc"], capture_output=True, text=True, check=True, stdin=subprocess.DEVNULL)
    kit = os.path.dirname(said.stdout.strip())
    os.makedirs(f"{room}/kit")
    for it in os.listdir(kit):
        if it != "bin":
            os.symlink(f"{kit}/{it}", f"{room}/kit/{it}")
    shutil.copytree(f"{kit}/bin", f"{room}/kit/bin")
    return f"{room}/kit/bin"


class First:
    """The first command of a commit, in a clone of its own."""

    def __init__(self, commit, room):
        self.commit, self.clone = commit, f"{room}/clone"
        subprocess.run(["git", "clone", "-q", ROOT, self.clone], check=True)
        subprocess.run(["git", "-C", self.clone, "checkout", "-q", commit], check=True)
        self.env = {**os.environ, "PATH": f"{kit_in(room)}:{os.environ['PATH']}"}
        self.log = open(f"{room}/log", "w+", encoding="utf-8", errors="replace")
        self.work, self.status, self.seconds, self.used = None, None, 0.0, 0.0

    def go_on(self):
        """Goes on for a turn, or until it has ended."""
        began = time.monotonic()
        if self.work is None:
            how = {"cwd": self.clone, "env": self.env, "stdin": subprocess.DEVNULL, "stdout": self.log, "stderr": self.log}
            self.work = subprocess.Popen(["./ruu", "run", "examples/sum.s"], **how)
        self.tell(signal.SIGCONT)
        while self.status is None and time.monotonic() - began < TURN:
            time.sleep(0.05)
            pid, status, usage = os.wait4(self.work.pid, os.WNOHANG)
            if pid:
                self.status, self.used = status, usage.ru_utime + usage.ru_stime
        self.seconds += time.monotonic() - began
        if self.status is None:
            self.tell(signal.SIGSTOP)

    def tell(self, what):
        """Sends a signal to all its processes, also to those that others began meanwhile."""
        told = []
        while new := [it for it in descendants(self.work.pid) if it not in told]:
            for it in new:
                try:
                    os.kill(it, what)
                except ProcessLookupError:
                    pass
            told = [*told, *new]


def main():
    parser = argparse.ArgumentParser(description=__doc__, formatter_class=argparse.RawDescriptionHelpFormatter)
    parser.add_argument("commit", nargs=2)
    given = parser.parse_args()
    with tempfile.TemporaryDirectory(dir=os.environ.get("TMPDIR")) as room:
        both = []
        for at, commit in enumerate(given.commit):
            os.mkdir(f"{room}/{at}")
            both.append(First(commit, f"{room}/{at}"))
        try:
            while going := [it for it in both if it.status is None]:
                for it in going:
                    it.go_on()
                    if it.status is not None:
                        print(f"{it.commit} first command {it.seconds:.0f} s, of one processor {it.used:.0f} s", flush=True)
        finally:
            for it in both:
                if it.work and it.status is None:
                    it.tell(signal.SIGKILL)
        if any(it.status for it in both):
            for it in both:
                it.log.seek(0)
                print(it.log.read(), file=sys.stderr)
            return 1
        print(f"ratio {both[1].seconds / both[0].seconds:.3f}, of one processor {both[1].used / both[0].used:.3f}")
    return 0


if __name__ == "__main__":
    sys.exit(main())
